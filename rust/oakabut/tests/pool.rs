//! The safe crate: the document's cases through a pool with lent and with owned memory, and what the crate adds of its own.

use oakabut::*;

const P: u64 = 0x4000_0000;
const Q: u64 = 0x5000_0000;
const F: u64 = 0x8000_0000;
const K4: u64 = GRANULE_4K;
const K16: u64 = GRANULE_16K;

fn the_eleven_cases(mut pool: Pool) -> Result<(), Refusal> {
    // 1
    assert_eq!(pool.setup(), Setup { levels: 3, base: P, tables: 4, free: 3, granule: K4, ..Setup::default() });
    assert_eq!(pool.list(), [3, 2, 1, 0]);
    // 2
    assert_eq!(pool.map(0, F, PAGE, 3)?, 2);
    assert_eq!(pool.setup().free, 1);
    assert_eq!([pool.words()[0], pool.words()[512], pool.words()[1024]], [0x4000_1003, 0x4000_2003, 0x0040_0000_8000_07FF]);
    // 3
    assert_eq!(pool.map(0x1000, 0x8000_1000, PAGE, 5)?, 0);
    assert_eq!(pool.words()[1025], 0x8000_177F);
    // 4
    assert_eq!(pool.map(0x20_0000, 0x8020_0000, BLOCK_2M, 3)?, 0);
    assert_eq!(pool.words()[513], 0x0040_0000_8020_07FD);
    assert_eq!(pool.audit()?, Audit { tables: 3, mappings: 3 });
    // 5
    assert_eq!(pool.map(0x20_1000, F, PAGE, 3), Err(Refusal::IN_USE));
    assert_eq!(pool.map(0, F, BLOCK_2M, 3), Err(Refusal::IN_USE));
    // 6
    assert_eq!(pool.map(0x4000_0000, F, PAGE, 3), Err(Refusal::NO_TABLES));
    // 7
    assert_eq!(pool.query(0x20_1234)?, Mapping { base: 0x20_0000, frame: 0x8020_0000, size: BLOCK_2M, attributes: 3 });
    // 8
    assert_eq!(pool.unmap(0x20_1000), Err(Refusal::NOT_THE_START));
    assert_eq!(pool.unmap(0x3000), Err(Refusal::empty(Hole { base: 0x3000, size: PAGE })));
    // 9
    assert_eq!(pool.unmap(0)?, Removed { frame: F, size: PAGE, attributes: 3, given: 0 });
    assert_eq!(pool.unmap(0x1000)?, Removed { frame: 0x8000_1000, size: PAGE, attributes: 5, given: 1 });
    assert_eq!((pool.list()[1], pool.setup().free), (2, 2));
    // 10
    assert_eq!(pool.unmap(0x20_0000)?, Removed { frame: 0x8020_0000, size: BLOCK_2M, attributes: 3, given: 1 });
    assert_eq!((pool.list()[2], pool.setup().free), (1, 3));
    assert!(pool.words().iter().all(|&word| word == 0));
    // 11
    assert_eq!(pool.map(0x7F_FFFF_F000, F, PAGE, 3)?, 2);
    assert_eq!(pool.setup().free, 1);
    assert_eq!(pool.map(0x80_0000_0000, F, PAGE, 3), Err(Refusal::RANGE));
    Ok(())
}

#[test]
fn owned_memory() {
    the_eleven_cases(Pool::owned(3, P, 4, K4).unwrap()).unwrap();
    for tables in [0, 513, (1 << 32) + 1, 1 << 40, u64::MAX] {
        assert_eq!(Pool::owned(3, P, tables, K4).unwrap_err(), Refusal::SETUP);
    }
}

#[test]
fn lent_memory() {
    let (mut words, mut list) = ([7; 512 * 4], [7; 4]);
    for tables in [3, 5] {
        assert_eq!(Pool::format(3, P, tables, K4, &mut words, &mut list).unwrap_err(), Refusal::SETUP);
        assert!(words == [7; 512 * 4] && list == [7; 4]);
    }
    the_eleven_cases(Pool::format(3, P, 4, K4, &mut words, &mut list).unwrap()).unwrap();
    assert_eq!(words[511], P + 4096 + 3);
}

#[test]
fn holes() {
    let hole = |pool: &Pool, address: u64| pool.query(address).unwrap_err().hole();
    let sized = |base, size| Some(Hole { base, size });
    let mut pool = Pool::owned(3, P, 4, K4).unwrap();
    assert_eq!(hole(&pool, 0), sized(0, BLOCK_1G));
    assert_eq!(pool.unmap(0x7F_FFFF_F000), Err(Refusal::empty(Hole { base: 0x7F_C000_0000, size: BLOCK_1G })));
    pool.map(0, F, PAGE, 3).unwrap();
    assert_eq!(hole(&pool, 0x20_0000), sized(0x20_0000, BLOCK_2M));
    assert_eq!(hole(&pool, 0x2FFF), sized(0x2000, PAGE));
    // one map that fits it fills it
    assert_eq!(pool.map(0x20_0000, F, BLOCK_2M, 3), Ok(0));
    let _ = pool.unmap(0).unwrap();
    assert_eq!(hole(&pool, 0), sized(0, BLOCK_2M));
    let _ = pool.unmap(0x20_0000).unwrap();
    assert_eq!(hole(&pool, 0), sized(0, BLOCK_1G));
    assert_eq!(hole(&Pool::owned(4, P, 4, K4).unwrap(), (1 << 48) - 1), sized(511 << 39, 1 << 39));
    // no other refusal has one
    assert_eq!(pool.query(1 << 39), Err(Refusal::RANGE));
    assert_eq!(Refusal::RANGE.hole(), None);
    let text = Refusal::empty(Hole { base: 0x2000, size: PAGE }).to_string();
    assert_eq!(text, "refusal 9, unmap, query: the walk ends at an empty entry, in a hole of 0x1000 bytes at 0x2000");
}

#[test]
fn a_pool_goes_on_from_its_parts() {
    let (mut words, mut list) = ([0; 512 * 4], [0; 4]);
    let mut pool = Pool::format(4, P, 4, K4, &mut words, &mut list).unwrap();
    assert_eq!(pool.map(0, F + PAGE, BLOCK_1G, DEVICE + READ), Err(Refusal::ALIGNMENT));
    assert_eq!(pool.map(0, F, BLOCK_2M, DEVICE + READ), Ok(2));
    let setup = pool.setup();
    let mut pool = Pool::resume(setup, &mut words, &mut list);
    assert_eq!(pool.audit(), Ok(Audit { tables: 3, mappings: 1 }));
    // a refused format leaves the pool as it was, an accepted one empties it
    assert_eq!(pool.reformat(5, P, 4, K4), Err(Refusal::SETUP));
    assert_eq!((pool.setup(), pool.audit().unwrap().mappings), (setup, 1));
    pool.reformat(3, 0, 4, K4).unwrap();
    let fresh = Setup { levels: 3, base: 0, tables: 4, free: 3, granule: K4, ..Setup::default() };
    assert_eq!((pool.setup(), pool.audit().unwrap().mappings), (fresh, 0));
}

#[test]
fn a_guest_is_never_given_its_own_tables() {
    let mut pool = Pool::owned(3, P, 4, K4).unwrap();
    for (frame, size) in [(P, PAGE), (P + 3 * PAGE, PAGE), (P, BLOCK_2M), (P, BLOCK_1G)] {
        assert_eq!(pool.map(0, frame, size, READ), Err(Refusal::IN_POOL));
    }
    assert_eq!(pool.map(0, P + 4 * PAGE, PAGE, READ), Ok(2));
    assert_eq!(pool.map(PAGE, P - PAGE, PAGE, READ), Ok(0));
    assert_eq!(pool.audit(), Ok(Audit { tables: 3, mappings: 2 }));
}

/// The pool one short: a page and a frame of 2 MiB, and one table free.
fn fill(pool: &mut Pool) {
    assert_eq!(pool.map(0, F, PAGE, 3), Ok(2));
    assert_eq!(pool.map(BLOCK_2M, F + BLOCK_2M, BLOCK_2M, 3), Ok(0));
    assert_eq!(pool.map(BLOCK_1G, F, PAGE, 3), Err(Refusal::NO_TABLES));
}

/// The map that got 7 is accepted.
fn goes_on(pool: &mut Pool) {
    assert_eq!(pool.setup(), Setup { levels: 3, base: P, tables: 4, free: 3, second_base: Q, second_tables: 2, granule: K4 });
    assert_eq!((pool.list()[..3].to_vec(), pool.audit()), (vec![3, 5, 4], Ok(Audit { tables: 3, mappings: 2 })));
    assert!(pool.second().len() == 1024 && pool.second().iter().all(|&word| word == 0));
    assert_eq!(pool.map(BLOCK_1G, F, PAGE, 3), Ok(2));
    assert_eq!((pool.words()[1], pool.second()[0]), (Q + 3, Q + PAGE + 3));
    assert_eq!(pool.query(BLOCK_1G + 5).unwrap().frame, F);
    assert_eq!(pool.audit(), Ok(Audit { tables: 5, mappings: 3 }));
    assert_eq!(pool.map(2 * BLOCK_1G, Q + PAGE, PAGE, 3), Err(Refusal::IN_POOL));
}

#[test]
fn a_second_region_is_added() {
    let (mut words, mut list) = ([7; 512 * 4], [7; 4]);
    let (mut second, mut longer) = ([7; 512 * 2], [9; 6]);
    let mut pool = Pool::format(3, P, 4, K4, &mut words, &mut list).unwrap();
    fill(&mut pool);
    pool.add(Q, 2, &mut second, &mut longer).unwrap();
    goes_on(&mut pool);
    assert_eq!(pool.list(), [3, 5, 4, 9, 9, 9]);
    let mut pool = Pool::owned(3, P, 4, K4).unwrap();
    fill(&mut pool);
    for (base, tables) in [(Q, 0), (P, 2), (Q + 1, 2), (Q, 509), (Q, u64::MAX)] {
        assert_eq!(pool.add_owned(base, tables), Err(Refusal::SETUP));
    }
    pool.add_owned(Q, 2).unwrap();
    goes_on(&mut pool);
    assert_eq!(pool.add_owned(Q + BLOCK_1G, 2), Err(Refusal::SETUP));
}

#[test]
fn a_refused_add_changes_nothing() {
    let (mut words, mut list) = ([7; 512 * 4], [7; 4]);
    let (mut second, mut longer) = ([7; 512 * 2], [9; 6]);
    let (mut short, mut few) = ([7; 511], [9; 5]);
    let mut pool = Pool::format(3, P, 4, K4, &mut words, &mut list).unwrap();
    fill(&mut pool);
    pool.map(PAGE, Q, PAGE, READ).unwrap();
    let setup = pool.setup();
    assert_eq!(pool.add(Q, 2, &mut second, &mut longer), Err(Refusal::IN_POOL));
    assert_eq!(pool.add(Q, 1, &mut short, &mut few), Err(Refusal::SETUP));
    assert_eq!((pool.setup(), pool.second().len(), pool.list().len()), (setup, 0, 4));
    assert_eq!(pool.audit(), Ok(Audit { tables: 3, mappings: 3 }));
    assert!(second == [7; 512 * 2] && longer == [9; 6] && short == [7; 511] && few == [9; 5]);
    // a damaged word in a table that is reached
    words[1024 + 9] = 5;
    let mut pool = Pool::resume(setup, &mut words, &mut list);
    assert_eq!(pool.add(2 * Q, 2, &mut second, &mut longer), Err(Refusal::DAMAGED));
    assert!(second == [7; 512 * 2] && longer == [9; 6]);
}

#[test]
fn tables_in_two_regions_from_the_start() {
    let (mut words, mut second, mut list) = ([7; 512 * 2], [7; 512 * 3], [7; 5]);
    assert_eq!(Pool::format_two(3, P, 2, P + PAGE, 3, K4, &mut words, &mut second, &mut list).unwrap_err(), Refusal::SETUP);
    assert!(words == [7; 512 * 2] && second == [7; 512 * 3] && list == [7; 5]);
    let mut pool = Pool::format_two(3, P, 2, Q, 3, K4, &mut words, &mut second, &mut list).unwrap();
    assert_eq!(pool.list(), [4, 3, 2, 1, 0]);
    // one table of each region
    assert_eq!(pool.map(0, F, PAGE, 3), Ok(2));
    assert_eq!((pool.words()[512], pool.second()[0]), (Q + 3, 0x0040_0000_8000_07FF));
    let setup = pool.setup();
    let mut pool = Pool::resume_two(setup, &mut words, &mut second, &mut list);
    assert_eq!(pool.audit(), Ok(Audit { tables: 3, mappings: 1 }));
    assert_eq!(pool.unmap(0).unwrap().given, 2);
    // one region needs an empty second run
    assert_eq!(pool.reformat(3, P, 2, K4), Err(Refusal::SETUP));
    pool.reformat_two(4, P, 2, P + 2 * PAGE, 3, K4).unwrap();
    let two = Setup { levels: 4, base: P, tables: 2, free: 4, second_base: P + 2 * PAGE, second_tables: 3, granule: K4 };
    assert_eq!(pool.setup(), two);
}

#[test]
fn the_granule_of_16_kib() {
    const BLOCK_64G: u64 = 1 << 36;
    let mut pool = Pool::owned(3, P, 4, K16).unwrap();
    assert_eq!(pool.setup(), Setup { levels: 3, base: P, tables: 4, free: 3, granule: K16, ..Setup::default() });
    assert_eq!((pool.words().len(), pool.list()), (4 * 2048, &[3, 2, 1, 0][..]));
    assert_eq!(pool.map(0, F, PAGE_16K, 3), Ok(2));
    assert_eq!(pool.map(BLOCK_32M, F + BLOCK_32M, BLOCK_32M, 3), Ok(0));
    assert_eq!([0, 2048, 4096].map(|i| pool.words()[i]), [P + K16 + 3, P + 2 * K16 + 3, 0x0040_0000_8000_07FF]);
    for size in [PAGE, BLOCK_2M, BLOCK_1G, BLOCK_64G] {
        assert_eq!(pool.map(BLOCK_64G, F, size, 3), Err(Refusal::SIZE));
    }
    assert_eq!(pool.map(PAGE, F, PAGE_16K, 3), Err(Refusal::ALIGNMENT));
    assert_eq!(pool.unmap(PAGE), Err(Refusal::ALIGNMENT));
    assert_eq!(pool.map(1 << 47, F, PAGE_16K, 3), Err(Refusal::RANGE));
    assert_eq!(pool.map(PAGE_16K, P + 3 * K16, PAGE_16K, 3), Err(Refusal::IN_POOL));
    let holes =
        [(PAGE_16K + 5, PAGE_16K, PAGE_16K), (2 * BLOCK_32M, 2 * BLOCK_32M, BLOCK_32M), (BLOCK_64G + 1, BLOCK_64G, BLOCK_64G)];
    for (address, base, size) in holes {
        assert_eq!(pool.query(address).unwrap_err().hole(), Some(Hole { base, size }));
    }
    // a page far away needs two tables, and one is free; two more of 16 KiB are added
    assert_eq!(pool.map(BLOCK_64G, F, PAGE_16K, 3), Err(Refusal::NO_TABLES));
    assert_eq!(pool.add_owned(Q + PAGE, 2), Err(Refusal::SETUP));
    pool.add_owned(Q, 2).unwrap();
    assert_eq!((pool.second().len(), pool.setup().granule), (2 * 2048, K16));
    assert_eq!(pool.map(BLOCK_64G, F, PAGE_16K, 3), Ok(2));
    assert_eq!((pool.words()[1], pool.second()[0], pool.audit()), (Q + 3, Q + K16 + 3, Ok(Audit { tables: 5, mappings: 3 })));
    assert_eq!(pool.unmap(BLOCK_64G).unwrap().given, 2);
}

#[test]
fn no_other_granule() {
    for granule in [0, 4095, 8192, 16383, 65536, u64::MAX] {
        assert_eq!(Pool::owned(3, P, 4, granule).unwrap_err(), Refusal::SETUP);
        let (mut words, mut list) = ([7; 512 * 4], [7; 4]);
        assert_eq!(Pool::format(3, P, 4, granule, &mut words, &mut list).unwrap_err(), Refusal::SETUP);
        assert!(words == [7; 512 * 4] && list == [7; 4]);
    }
    assert_eq!(Pool::owned(4, P, 4, K16).unwrap_err(), Refusal::SETUP);
    assert_eq!(Pool::owned(3, P + PAGE, 4, K16).unwrap_err(), Refusal::SETUP);
    // words of the one granule, and the number of the other
    let (mut words, mut list) = ([0; 512 * 4], [0; 4]);
    assert_eq!(Pool::format(3, P, 4, K16, &mut words, &mut list).unwrap_err(), Refusal::SETUP);
    let setup = Pool::format(3, P, 4, K4, &mut words, &mut list).unwrap().setup();
    let mixed = Pool::resume(Setup { granule: K16, ..setup }, &mut words, &mut list);
    assert_eq!(mixed.audit(), Err(Refusal::SETUP));
}

/// The pool of case 4, mapped from the last address down.
fn case_4() -> Pool<'static> {
    let mut pool = Pool::owned(3, P, 4, K4).unwrap();
    pool.map(0x20_0000, 0x8020_0000, BLOCK_2M, 3).unwrap();
    pool.map(0x1000, 0x8000_1000, PAGE, 5).unwrap();
    pool.map(0, F, PAGE, 3).unwrap();
    pool
}

#[test]
fn lists() {
    let pool = case_4();
    let (mut places, mut entries) = ([7; 4], [7; 4]);
    assert_eq!(pool.list_from(0, &mut places, &mut entries), Ok(Listed { written: 3, next: None }));
    assert_eq!(places, [12, 0x1000 + 12, 0x20_0000 + 21, 7]);
    assert_eq!(entries, [0x40_0000_8000_07FF, 0x8000_177F, 0x40_0000_8020_07FD, 7]);
    // no place at all, and fewer than there are mappings
    assert_eq!(pool.list_from(0, &mut [], &mut []), Ok(Listed { written: 0, next: Some(0) }));
    assert_eq!(pool.list_from(1, &mut places[..1], &mut entries[..1]), Ok(Listed { written: 1, next: Some(0x20_0000) }));
    assert_eq!(pool.list_from(0x20_0001, &mut places, &mut entries), Ok(Listed { written: 0, next: None }));
    // refused, both runs stay
    (places, entries) = ([7; 4], [7; 4]);
    assert_eq!(pool.list_from(1 << 39, &mut places, &mut entries[..3]), Err(Refusal::SETUP));
    assert_eq!(pool.list_from(1 << 39, &mut places, &mut entries), Err(Refusal::RANGE));
    let (mut words, mut list) = (pool.words().to_vec(), pool.list().to_vec());
    words[1024 + 9] = 5;
    let damaged = Pool::resume(pool.setup(), &mut words, &mut list);
    assert_eq!(damaged.list_from(0x20_0000, &mut places, &mut entries), Err(Refusal::DAMAGED));
    assert_eq!(damaged.mappings().err(), Some(Refusal::DAMAGED));
    assert_eq!((places, entries), ([7; 4], [7; 4]));
}

#[test]
fn all_mappings_one_after_the_other() {
    let lines = |pool: &Pool| pool.mappings().unwrap().map(|mapping| mapping.to_string()).collect::<Vec<_>>();
    assert_eq!(
        lines(&case_4()),
        [
            "0x00000000  4 KiB  -> 0x80000000  rw-  normal",
            "0x00001000  4 KiB  -> 0x80001000  r-x  normal",
            "0x00200000  2 MiB  -> 0x80200000  rw-  normal"
        ]
    );
    let mut pool = Pool::owned(3, P, 8, K16).unwrap();
    assert_eq!(lines(&pool), [""; 0]);
    pool.map(1 << 36, F, PAGE_16K, DEVICE + READ).unwrap();
    pool.map(BLOCK_32M, F, BLOCK_32M, EXECUTE).unwrap();
    assert_eq!(
        lines(&pool),
        ["0x02000000  32 MiB  -> 0x80000000  --x  normal", "0x1000000000  16 KiB  -> 0x80000000  r--  device"]
    );
    // several pages of the iterator, full ones among them
    for count in [0, 1, 63, 64, 65, 128, 500] {
        let mut pool = Pool::owned(4, P, 8, K4).unwrap();
        for i in (0..count).rev() {
            pool.map(i * PAGE, F + i * PAGE, PAGE, i % 16).unwrap();
        }
        pool.map(BLOCK_1G, 0, BLOCK_1G, 0).unwrap();
        let all: Vec<Mapping> = pool.mappings().unwrap().collect();
        assert_eq!(all.len() as u64, count + 1);
        for (i, mapping) in (0..count).zip(&all) {
            assert_eq!(*mapping, Mapping { base: i * PAGE, frame: F + i * PAGE, size: PAGE, attributes: i % 16 });
        }
        assert_eq!(all[count as usize].to_string(), "0x40000000  1 GiB  -> 0x00000000  ---  normal");
        assert_eq!(pool.mappings_from(PAGE * count + 1).unwrap().count(), 1);
        assert_eq!(pool.mappings_from(1 << 48).err(), Some(Refusal::RANGE));
    }
}

#[test]
fn numbers_that_no_list_writes() {
    let word = frame_word(F, PAGE, 3).unwrap();
    assert_eq!(Mapping::listed(0x1000 + 12, word).unwrap().frame, F);
    for power in [0, 11, 13, 31, 63, 64, 4095] {
        assert_eq!(Mapping::listed(0x1000 + power, word), Err(Refusal::SIZE));
    }
    assert_eq!(Mapping::listed(21, word), Err(Refusal::DAMAGED));
    assert_eq!(Mapping::listed(12, 0), Err(Refusal::DAMAGED));
}

#[test]
fn the_hosts_two_calls() {
    for size in [PAGE, BLOCK_2M, BLOCK_1G, PAGE_16K, BLOCK_32M] {
        for attributes in 0..16 {
            let word = frame_word(3 * BLOCK_1G, size, attributes).unwrap();
            assert_eq!(word_meaning(word, size), Ok((3 * BLOCK_1G, attributes)));
            assert_eq!(word_meaning(word ^ 1, size), Err(Refusal::DAMAGED));
        }
    }
    assert_eq!(frame_word(0, PAGE, DEVICE + READ + WRITE).unwrap() % 4096, 0x4C3);
    assert_eq!(frame_word(PAGE, PAGE_16K, 3), Err(Refusal::ALIGNMENT));
    assert_eq!(word_meaning(frame_word(PAGE, PAGE, 3).unwrap(), PAGE_16K), Err(Refusal::DAMAGED));
    assert_eq!(frame_word(0, 1 << 36, 3), Err(Refusal::SIZE));
    assert_eq!(frame_word(1, 1, 16), Err(Refusal::SIZE));
    assert_eq!(frame_word(1 << 48, PAGE, 16), Err(Refusal::ATTRIBUTES));
    assert_eq!(frame_word((1 << 48) + 1, PAGE, 15), Err(Refusal::RANGE));
    assert_eq!(frame_word(1, PAGE, 15), Err(Refusal::ALIGNMENT));
    assert_eq!(word_meaning(0, 0), Err(Refusal::SIZE));
}

#[test]
fn refusals_say_their_number_and_why() {
    let refusal = Pool::owned(5, P, 4, K4).unwrap_err();
    assert_eq!(refusal.to_string(), "refusal 1, a setup number or a length breaks the rules");
    assert_eq!((Refusal::NOT_THE_START.number(), Refusal::IN_POOL.number()), (10, 11));
}

/// Ranges of a pool: one call each way, with the answers and refusals typed.
#[test]
fn ranges() {
    let mut pool = Pool::owned(3, P, 24, K4).unwrap();
    assert_eq!(pool.map_range(0x4000_0000, F, 40 << 20, 3), Ok(1));
    assert_eq!(pool.query(0x4027_FFFF).unwrap().size, BLOCK_2M);
    assert_eq!(pool.audit(), Ok(Audit { tables: 2, mappings: 20 }));
    assert_eq!(pool.unmap_range(0x4000_0000, PAGE), Err(Refusal::NOT_THE_START));
    assert_eq!(pool.unmap_range(0, 1 << 32), Ok(Cleared { removed: 20, given: 1 }));
    assert_eq!(pool.unmap_range(0, 1 << 32), Ok(Cleared { removed: 0, given: 0 }));
    // the frame's base is off by a page: 10,240 pieces
    assert_eq!(pool.map_range(0x4000_0000, F + PAGE, 40 << 20, 3), Ok(21));
    assert_eq!(pool.audit(), Ok(Audit { tables: 22, mappings: 10_240 }));
    assert_eq!(pool.map_range(0x3FFF_F000, F, 2 * PAGE, 3), Err(Refusal::IN_USE));
    assert_eq!(pool.map_range(0x8000_0000, F + PAGE, 40 << 20, 3), Err(Refusal::NO_TABLES));
    for (address, frame, length, attributes, refusal) in [
        (0, F, 0, 3, Refusal::SIZE),
        (0, F, (1 << 32) + PAGE, 3, Refusal::SIZE),
        (0, F, PAGE, 16, Refusal::ATTRIBUTES),
        (u64::MAX - 4095, F, 2 * PAGE, 3, Refusal::RANGE),
        (1, F, PAGE, 3, Refusal::ALIGNMENT),
        (0, P - PAGE, 2 * PAGE, 3, Refusal::IN_POOL),
    ] {
        assert_eq!(pool.map_range(address, frame, length, attributes), Err(refusal));
    }
    assert_eq!(pool.setup().free, 2);
    let mut pool = Pool::owned(3, P, 4, K16).unwrap();
    assert_eq!(pool.map_range(0, F, PAGE, 3), Err(Refusal::SIZE));
    assert_eq!(pool.map_range(0, F, 40 << 20, 3), Ok(2));
    assert_eq!(pool.audit(), Ok(Audit { tables: 3, mappings: 513 }));
    assert_eq!(pool.unmap_range(0, 40 << 20), Ok(Cleared { removed: 513, given: 2 }));
}

#[cfg(feature = "std")]
#[test]
fn a_refusal_is_an_error() {
    let refusal: Box<dyn std::error::Error> = Box::new(Refusal::IN_POOL);
    assert_eq!(refusal.to_string(), Refusal::IN_POOL.to_string());
}
