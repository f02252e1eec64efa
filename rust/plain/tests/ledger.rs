//! Every short history of a few calls, compared with the ledger.

use plain::ledger::Ledger;
use plain::*;

/// A pool with its memory.
#[derive(Clone)]
struct Pool {
    setup: Setup,
    words: Vec<u64>,
    second: Vec<u64>,
    list: Vec<u32>,
}

/// The regions of entries at the last three levels, for a granule: the page, the block, and the region above.
fn regions(granule: u64) -> [u64; 3] {
    match granule {
        16384 => [1 << 14, 1 << 25, 1 << 36],
        _ => [1 << 12, 1 << 21, 1 << 30],
    }
}

/// Goes through all histories of `more` further calls, each a map, an unmap, a range of either or an add.
fn histories(pool: &Pool, ledger: &Ledger, more: u32) {
    let Pool { setup, words, second, list } = pool;
    let [page, block, large] = regions(setup.granule);
    assert_eq!(setup.free, ledger.free());
    assert_eq!(audit(*setup, words, second, list), Ok(ledger.audit()));
    for address in [0, page + 1, block + page, large - 1, large, 1 << 39, 1 << 47] {
        assert_eq!(query(*setup, words, second, list, address), ledger.query(address));
    }
    if more == 0 {
        return;
    }
    // addresses and sizes that share tables, overlap and prune in every way; the larger granule has no frame of the last size
    for (address, size) in [(0, page), (page, page), (block, page), (0, block), (block, block), (0, large), (large, page)] {
        let (mut next, mut ledger) = (pool.clone(), ledger.clone());
        // a page at 5 pages lies in pools of more than five tables
        let (setup, answer) = map(*setup, &mut next.words, &mut next.second, list, address, 5 * size, size, 6);
        assert_eq!(answer, ledger.map(address, 5 * size, size, 6));
        if answer.is_ok() {
            histories(&Pool { setup, ..next }, &ledger, more - 1);
        }
    }
    // the last two calls are no ranges
    if more > 2 {
        ranges(pool, ledger, more);
    }
    for address in [0, page, block, large] {
        let (mut next, mut ledger) = (pool.clone(), ledger.clone());
        let (setup, answer) = unmap(*setup, &mut next.words, &mut next.second, &mut next.list, address);
        assert_eq!(answer, ledger.unmap(address));
        if answer.is_ok() {
            histories(&Pool { setup, ..next }, &ledger, more - 1);
        }
    }
    // a second region of one table is added, in which a page of some maps lies
    let (mut next, mut ledger) = (pool.clone(), ledger.clone());
    next.second = vec![7; page as usize / 8];
    next.list.resize(setup.tables as usize + 1, 7);
    let (setup, answer) = add(*setup, words, &mut next.second, &mut next.list, 5 * page, 1);
    assert_eq!(answer, ledger.add(5 * page, 1, page / 8, next.list.len() as u64));
    if answer.is_ok() {
        histories(&Pool { setup, ..next }, &ledger, more - 1);
    }
}

/// The same where the next call is a range, to be mapped or unmapped.
fn ranges(pool: &Pool, ledger: &Ledger, more: u32) {
    let Pool { setup, list, .. } = pool;
    let [page, block, large] = regions(setup.granule);
    for (address, frame, length) in
        [(0, 0, block + page), (block - page, 9 * page, 2 * page), (0, page, 3 * page), (large - block, 9 * block, 2 * block)]
    {
        let (mut next, mut ledger) = (pool.clone(), ledger.clone());
        let frame = (1 << 46) + frame;
        let (setup, answer) = map_range(*setup, &mut next.words, &mut next.second, list, address, frame, length, 6);
        assert_eq!(answer, ledger.map_range(address, frame, length, 6));
        if answer.is_ok() {
            histories(&Pool { setup, ..next }, &ledger, more - 1);
        }
    }
    for (address, length) in [(0, 2 * block), (page, block - page), (page, 2 * block), (0, large.min(1 << 32))] {
        let (mut next, mut ledger) = (pool.clone(), ledger.clone());
        let (setup, answer) = unmap_range(*setup, &mut next.words, &mut next.second, &mut next.list, address, length);
        assert_eq!(answer, ledger.unmap_range(address, length));
        if matches!(answer, Ok(cleared) if cleared.removed > 0) {
            histories(&Pool { setup, ..next }, &ledger, more - 1);
        }
    }
}

/// Goes through all histories from a fresh format of so many tables in the first region and in the second.
fn from_format(levels: u64, granule: u64, tables: u64, second_tables: u64, more: u32) {
    let second_base = if second_tables == 0 { 0 } else { 8 * granule };
    let entries = granule as usize / 8;
    let mut words = vec![7; entries * tables as usize];
    let mut second = vec![7; entries * second_tables as usize];
    let mut list = vec![7; (tables + second_tables) as usize];
    let (setup, answer) = format(levels, 0, tables, second_base, second_tables, granule, &mut words, &mut second, &mut list);
    assert_eq!(answer, Ok(()));
    let ledger = Ledger::new(levels, 0, tables, second_base, second_tables, granule);
    histories(&Pool { setup, words, second, list }, &ledger, more);
}

/// The levels that each granule has.
const TREES: [(u64, u64); 3] = [(3, 4096), (4, 4096), (3, 16384)];

#[test]
fn every_short_history() {
    for (levels, granule) in TREES {
        for tables in 1..=7 {
            from_format(levels, granule, tables, 0, 5);
        }
    }
}

#[test]
fn every_short_history_of_two_regions() {
    for (levels, granule) in TREES {
        for (tables, second_tables) in [(1, 1), (1, 2), (1, 4), (2, 1), (2, 3), (3, 2), (4, 1), (5, 2)] {
            from_format(levels, granule, tables, second_tables, 4);
        }
    }
}
