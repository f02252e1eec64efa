//! Maps and unmaps of a range.

use plain::ledger::Ledger;
use plain::*;

const P: u64 = 0x4000_0000;
const Q: u64 = 0x5000_0000;
const F: u64 = 0x8000_0000;
const PAGE: u64 = 4096;
const MIB2: u64 = 1 << 21;
const GIB: u64 = 1 << 30;
const KIB16: u64 = 1 << 14;
const MIB32: u64 = 1 << 25;

#[derive(Clone, Debug, PartialEq)]
struct Pool {
    setup: Setup,
    words: Vec<u64>,
    second: Vec<u64>,
    list: Vec<u32>,
}

impl Pool {
    fn new(levels: u64, tables: u64, second_tables: u64, granule: u64) -> Pool {
        let room = |tables: u64| vec![7; (granule / 8 * tables) as usize];
        let (mut words, mut second, mut list) = (room(tables), room(second_tables), vec![7; (tables + second_tables) as usize]);
        let second_base = if second_tables == 0 { 0 } else { Q };
        let (setup, answer) = format(levels, P, tables, second_base, second_tables, granule, &mut words, &mut second, &mut list);
        answer.unwrap();
        Pool { setup, words, second, list }
    }

    fn ledger(&self) -> Ledger {
        let Setup { levels, base, tables, second_base, second_tables, granule, .. } = self.setup;
        Ledger::new(levels, base, tables, second_base, second_tables, granule)
    }

    fn map(&mut self, address: u64, frame: u64, size: u64, attributes: u64) -> Result<u64, u64> {
        let Pool { setup, words, second, list } = self;
        let (after, answer) = map(*setup, words, second, list, address, frame, size, attributes);
        *setup = after;
        answer.map_err(Refusal::number)
    }

    fn unmap(&mut self, address: u64) -> Result<Removed, Refusal> {
        let Pool { setup, words, second, list } = self;
        let (after, answer) = unmap(*setup, words, second, list, address);
        *setup = after;
        answer
    }

    /// Maps a range, and all its pieces one by one in a copy. Refused, nothing changes.
    fn map_range(&mut self, address: u64, frame: u64, length: u64, attributes: u64) -> Result<u64, u64> {
        let before = self.clone();
        let Pool { setup, words, second, list } = self;
        let (after, answer) = map_range(*setup, words, second, list, address, frame, length, attributes);
        *setup = after;
        let taken = match answer {
            Ok(taken) => taken,
            Err(refusal) => {
                assert_eq!(*self, before);
                return Err(refusal.number());
            }
        };
        let (mut singles, mut sum) = (before, 0);
        for (address, frame, size) in pieces(self.setup.granule, address, frame, length) {
            sum += singles.map(address, frame, size, attributes).unwrap();
        }
        assert_eq!((&singles, sum), (&*self, taken));
        Ok(taken)
    }

    /// Unmaps a range, and all its mappings one by one in a copy.
    fn unmap_range(&mut self, address: u64, length: u64) -> Result<(u64, u64), u64> {
        let before = self.clone();
        let Pool { setup, words, second, list } = self;
        let (after, answer) = unmap_range(*setup, words, second, list, address, length);
        *setup = after;
        let Cleared { removed, given } = match answer {
            Ok(cleared) => cleared,
            Err(refusal) => {
                assert_eq!(*self, before);
                return Err(refusal.number());
            }
        };
        let (mut singles, mut at, mut sums) = (before, address, (0, 0));
        while at < address + length {
            match singles.unmap(at) {
                Ok(Removed { size, given, .. }) => (at, sums) = (at + size, (sums.0 + 1, sums.1 + given)),
                Err(Refusal::Empty(hole)) => at = hole.base + hole.size,
                Err(refusal) => panic!("{refusal:?}"),
            }
        }
        assert_eq!((&singles, sums), (&*self, (removed, given)));
        Ok((removed, given))
    }
}

/// The pieces of a range: address, frame and size.
fn pieces(granule: u64, address: u64, frame: u64, length: u64) -> Vec<(u64, u64, u64)> {
    let (mut pieces, mut done) = (Vec::new(), 0);
    while done < length {
        let fits = |&&size: &&u64| (address + done) % size == 0 && (frame + done) % size == 0 && size <= length - done;
        let size = *sizes_of(granule).iter().rev().find(fits).unwrap();
        pieces.push((address + done, frame + done, size));
        done += size;
    }
    pieces
}

#[test]
fn the_largest_piece_at_each_point() {
    let mut pool = Pool::new(3, 16, 0, 4096);
    assert_eq!(pool.map_range(GIB - PAGE, F + GIB - PAGE, GIB + MIB2 + 2 * PAGE, 3), Ok(4));
    let at = |pool: &Pool, address| query(pool.setup, &pool.words, &pool.second, &pool.list, address).map(|found| found.size);
    assert_eq!(at(&pool, GIB - 1), Ok(PAGE));
    assert_eq!(at(&pool, GIB), Ok(GIB));
    assert_eq!(at(&pool, 2 * GIB), Ok(MIB2));
    assert_eq!(at(&pool, 2 * GIB + MIB2), Ok(PAGE));
    assert_eq!(pool.unmap_range(0, 4 * GIB), Ok((4, 4)));
    // the frame's base decides too
    assert_eq!(pool.map_range(GIB, F + MIB2, 2 * MIB2, 3), Ok(1));
    assert_eq!(pool.map_range(2 * GIB, F + PAGE, MIB2, 3), Ok(2));
    assert_eq!(at(&pool, 2 * GIB), Ok(PAGE));
    assert_eq!(pool.unmap_range(0, 4 * GIB), Ok((514, 3)));
    // 40 MiB of blocks, and of pages
    assert_eq!(pool.map_range(GIB, F, 40 << 20, 3), Ok(1));
    assert_eq!(pool.unmap_range(GIB, 40 << 20), Ok((20, 1)));
    assert_eq!(Pool::new(3, 22, 0, 4096).map_range(GIB, F + PAGE, 40 << 20, 3), Ok(21));
    assert_eq!(Pool::new(3, 21, 0, 4096).map_range(GIB, F + PAGE, 40 << 20, 3), Err(7));
}

#[test]
fn refusals_in_their_order() {
    let mut pool = Pool::new(3, 4, 0, 4096);
    let top = u64::MAX - 4095;
    for (address, frame, length, attributes, number) in [
        (top + 1, top + 1, 0, 16, 2),
        (0, F, PAGE + 1, 16, 2),
        (0, F, (4 << 30) + PAGE, 3, 2),
        (0, F, 1 << 63, 3, 2),
        (top + 1, top + 1, PAGE, 16, 3),
        (top, F, 2 * PAGE, 3, 4),
        (top, F, PAGE, 3, 4),
        ((1 << 39) - PAGE, F + 1, 2 * PAGE, 3, 4),
        (0, (1 << 48) - PAGE, 2 * PAGE, 3, 4),
        (0, top, 2 * PAGE, 3, 4),
        (1 << 11, P, PAGE, 3, 5),
        (0, P + 1, PAGE, 3, 5),
        (0, P - PAGE, 2 * PAGE, 3, 11),
        (0, 0, 4 << 30, 3, 11),
        (0, F, 3 * MIB2 + PAGE, 3, 0),
        (4 * GIB, 4 * GIB, 4 << 30, 3, 0),
        (0, F, PAGE, 3, 6),
        (MIB2, F + PAGE, 40 << 20, 3, 6),
        (GIB, F + PAGE, 40 << 20, 3, 7),
    ] {
        let answer = pool.map_range(address, frame, length, attributes);
        assert_eq!(answer.err().unwrap_or(0), number, "{address:x} {frame:x} {length:x} {attributes}");
    }
    for (address, length, number) in [
        (top + 1, 0, 2),
        (top + 1, PAGE, 4),
        (top, 2 * PAGE, 4),
        ((1 << 39) - PAGE, 2 * PAGE, 4),
        (1, PAGE, 5),
        (PAGE, MIB2, 10),
        (MIB2 - PAGE, 2 * PAGE, 10),
        (MIB2 - PAGE, PAGE, 10),
        (4 * GIB + MIB2, PAGE, 10),
        (2 * GIB, GIB, 0),
        (0, 4 << 30, 0),
    ] {
        assert_eq!(pool.unmap_range(address, length).err().unwrap_or(0), number, "{address:x} {length:x}");
    }
}

#[test]
fn one_table_for_two_regions() {
    let mut pool = Pool::new(3, 4, 0, 4096);
    (pool.words[0], pool.words[1], pool.setup.free) = (P + PAGE + 3, P + PAGE + 3, 2);
    assert_eq!(pool.clone().map_range(0, F, MIB2, 3), Ok(0));
    assert_eq!(pool.map_range(GIB - MIB2, F, 2 * MIB2, 3), Err(8));
    assert_eq!(pool.map_range(0, F, 2 * GIB, 3), Err(6));
    assert_eq!(pool.unmap_range(0, GIB), Ok((0, 0)));
    assert_eq!(pool.unmap_range(GIB - PAGE, 2 * PAGE), Err(8));
    // a hole lies between the two
    (pool.words[1], pool.words[2]) = (0, P + PAGE + 3);
    assert_eq!(pool.unmap_range(0, 3 * GIB), Err(8));
    assert_eq!(pool.unmap_range(0, 2 * GIB), Ok((0, 0)));
}

#[test]
fn damage_that_is_met_and_damage_that_is_not() {
    let mut pool = Pool::new(3, 4, 0, 4096);
    pool.map_range(0, F, 2 * PAGE, 3).unwrap();
    pool.map(MIB2, F, MIB2, 3).unwrap();
    pool.words[2 * 512 + 5] = 5;
    assert_eq!(pool.map_range(3 * PAGE, F, 2 * PAGE, 3), Ok(0));
    assert_eq!(pool.map_range(6 * PAGE, F, PAGE, 3), Ok(0));
    for (address, length) in [(5 * PAGE, PAGE), (0, 6 * PAGE), (0, 2 * MIB2), (5 * PAGE, MIB2)] {
        assert_eq!(pool.map_range(address, F + PAGE, length, 3), Err(8));
        assert_eq!(pool.unmap_range(address, length), Err(8));
    }
    // a piece of 2 MiB does not look into the table
    assert_eq!(pool.map_range(0, F, 2 * MIB2, 3), Err(6));
    assert_eq!(pool.unmap_range(0, 5 * PAGE), Ok((4, 0)));
    assert_eq!(pool.unmap_range(6 * PAGE, MIB2 - 6 * PAGE), Ok((1, 0)));
}

#[test]
fn the_free_list() {
    let fresh = Pool::new(3, 8, 0, 4096);
    let with = |place: usize, number: u32| {
        let mut pool = fresh.clone();
        pool.list[place] = number;
        pool
    };
    // three tables: places 6, 5 and 4
    for number in [0, 8, u32::MAX, 1, 2] {
        assert_eq!(with(4, number).map_range(MIB2 - PAGE, F, 2 * PAGE, 3), Err(8));
        assert_eq!(with(3, number).map_range(MIB2 - PAGE, F, 2 * PAGE, 3), Ok(3));
    }
    // a table of a path that needs nothing
    let mut pool = fresh.clone();
    pool.map(0, F, PAGE, 3).unwrap();
    pool.list[4] = 2;
    assert_eq!(pool.map_range(MIB2 - PAGE, F, 2 * PAGE, 3), Err(8));
    assert_eq!(pool.clone().map_range(MIB2, F, 2 * PAGE, 3), Ok(1));
    // no room for what comes back
    let mut pool = fresh.clone();
    pool.map_range(MIB2 - PAGE, F, 2 * PAGE, 3).unwrap();
    pool.setup.free = 5;
    assert_eq!(pool.unmap_range(0, 2 * MIB2), Err(8));
    assert_eq!(pool.clone().unmap_range(0, MIB2), Ok((1, 1)));
    pool.setup.free = 4;
    assert_eq!(pool.unmap_range(0, 2 * MIB2), Ok((2, 3)));
    // an empty table is a hole and stays
    let mut pool = fresh;
    pool.map(0, F, PAGE, 3).unwrap();
    pool.words[513] = P + 3 * PAGE + 3;
    assert_eq!(pool.unmap_range(0, GIB), Ok((1, 1)));
    assert_eq!(pool.unmap_range(0, GIB), Ok((0, 0)));
}

#[test]
fn the_larger_granule() {
    let mut pool = Pool::new(3, 3, 2, 16384);
    for (address, frame, length, number) in [
        (0, F, PAGE, 2),
        (0, F, (4 << 30) + KIB16, 2),
        (PAGE, F, KIB16, 5),
        (0, F + PAGE, KIB16, 5),
        ((1 << 47) - KIB16, F, 2 * KIB16, 4),
        (0, Q + KIB16, KIB16, 11),
        (0, P + 3 * KIB16, KIB16, 0),
        (MIB32 - KIB16, F + MIB32 - KIB16, MIB32 + 2 * KIB16, 0),
        ((1 << 36) - KIB16, F, 2 * KIB16, 7),
    ] {
        assert_eq!(pool.map_range(address, frame, length, 3).err().unwrap_or(0), number, "{address:x} {frame:x} {length:x}");
    }
    assert_eq!(pool.unmap_range(MIB32, KIB16), Err(10));
    assert_eq!(pool.unmap_range(0, 4 << 30), Ok((4, 3)));
}

/// Ranges on both sides of every border, compared with the ledger.
#[test]
fn ranges_as_the_ledger_has_them() {
    for (levels, tables, second, granule) in
        [(3, 4, 0, 4096), (3, 7, 2, 4096), (4, 9, 0, 4096), (3, 4, 2, 16384), (3, 9, 0, 16384)]
    {
        let [page, block] = [granule, granule * granule / 8];
        let large = block * granule / 8;
        let starts = [0, page, block - page, block, 3 * block - 2 * page, large - block, large - page, large];
        let lengths = [page, 2 * page, 3 * page, block, block + page, 2 * block, large.min(4 << 30), 4 << 30];
        let fresh = Pool::new(levels, tables, second, granule);
        let (mut pool, mut ledger) = (fresh.clone(), fresh.ledger());
        for (i, &a) in starts.iter().enumerate() {
            for (k, &length) in lengths.iter().enumerate() {
                for frame in [F + a, F + a + page, F + a + block] {
                    let answer = pool.map_range(a, frame, length, (i + k) as u64 % 16);
                    assert_eq!(answer, ledger.map_range(a, frame, length, (i + k) as u64 % 16).map_err(Refusal::number));
                    assert_eq!(pool.setup.free, ledger.free());
                }
                let (from, length) = (starts[(3 * i + k) % 8], lengths[(5 * k + i) % 8]);
                let expected = ledger.unmap_range(from, length).map(|c| (c.removed, c.given)).map_err(Refusal::number);
                assert_eq!(pool.unmap_range(from, length), expected);
                assert_eq!(audit(pool.setup, &pool.words, &pool.second, &pool.list), Ok(ledger.audit()));
            }
        }
    }
}
