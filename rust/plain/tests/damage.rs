//! Damaged pools: each kind of damage that the document names, and what is no damage.

use plain::*;

const P: u64 = 0x4000_0000;
const PAGE: u64 = 4096;
const MIB2: u64 = 1 << 21;
const GIB: u64 = 1 << 30;

/// A pool of eight tables with three pages and a 2 MiB frame: tables 1 and 2 on the path of the pages, then 3 and 4.
struct Pool {
    setup: Setup,
    words: Vec<u64>,
    list: Vec<u32>,
}

impl Pool {
    fn new() -> Pool {
        let (mut words, mut list) = (vec![0; 512 * 8], vec![0; 8]);
        let (mut setup, _) = format(3, P, 8, 0, 0, 4096, &mut words, &mut [], &mut list);
        for (address, size) in [(0, PAGE), (PAGE, PAGE), (MIB2, MIB2), (GIB, PAGE)] {
            let (next, answer) = map(setup, &mut words, &mut [], &list, address, 0, size, 7);
            answer.unwrap();
            setup = next;
        }
        assert_eq!((setup.free, &list[..3]), (3, &[7, 6, 5][..]));
        Pool { setup, words, list }
    }

    fn with(word: usize, value: u64) -> Pool {
        let mut pool = Pool::new();
        pool.words[word] = value;
        pool
    }

    fn with_list(list: [u32; 8], free: u64) -> Pool {
        let mut pool = Pool::new();
        pool.list = list.to_vec();
        pool.setup.free = free;
        pool
    }

    fn map(&self, address: u64, size: u64) -> Result<u64, u64> {
        let mut words = self.words.clone();
        let (setup, answer) = map(self.setup, &mut words, &mut [], &self.list, address, 0, size, 0);
        assert!(answer.is_ok() || setup == self.setup && words == self.words);
        answer.map_err(Refusal::number)
    }

    fn unmap(&self, address: u64) -> Result<u64, u64> {
        let (mut words, mut list) = (self.words.clone(), self.list.clone());
        let (setup, answer) = unmap(self.setup, &mut words, &mut [], &mut list, address);
        assert!(answer.is_ok() || setup == self.setup && words == self.words && list == self.list);
        answer.map(|removed| removed.given).map_err(Refusal::number)
    }

    fn query(&self, address: u64) -> Result<u64, u64> {
        query(self.setup, &self.words, &[], &self.list, address).map(|found| found.base).map_err(Refusal::number)
    }

    fn audit(&self) -> Result<(u64, u64), u64> {
        audit(self.setup, &self.words, &[], &self.list).map(|counts| (counts.tables, counts.mappings)).map_err(Refusal::number)
    }
}

fn table(number: u64) -> u64 {
    P + 4096 * number + 3
}

#[test]
fn the_good_pool() {
    let pool = Pool::new();
    assert_eq!(pool.audit(), Ok((5, 4)));
    assert_eq!((pool.map(2 * PAGE, PAGE), pool.map(2 * MIB2, PAGE), pool.map(2 * GIB, PAGE)), (Ok(0), Ok(1), Ok(2)));
    assert_eq!((pool.unmap(0), pool.unmap(MIB2), pool.unmap(GIB)), (Ok(0), Ok(0), Ok(2)));
}

#[test]
fn damaged_words() {
    let frame = frame_word(0, PAGE, 7);
    // (the place of an entry for pages 2 and above, 2 MiB, or 1 GiB; words that are damaged there)
    let last = [1, 2, table(3), frame & !1, frame | 1 << 11, frame | 1 << 48, frame | 1 << 63, frame & !(1 << 10), u64::MAX];
    for word in last {
        let pool = Pool::with(512 * 2 + 2, word);
        assert_eq!(
            (pool.map(2 * PAGE, PAGE), pool.unmap(2 * PAGE), pool.query(2 * PAGE), pool.audit()),
            (Err(8), Err(8), Err(8), Err(8))
        );
        assert_eq!(pool.query(0), Ok(0));
    }
    let middle =
        [1, table(0), table(8), table(1) + 8, table(1) - 2, P - 4096 + 3, 3, frame, frame_word(PAGE, PAGE, 7) & !2, u64::MAX];
    for word in middle {
        let pool = Pool::with(512 + 2, word);
        let at = 2 * MIB2;
        assert_eq!((pool.map(at, PAGE), pool.map(at, MIB2), pool.unmap(at), pool.query(at)), (Err(8), Err(8), Err(8), Err(8)));
        assert_eq!(pool.audit(), Err(8));
    }
    let top = [frame, frame_word(MIB2, MIB2, 7), frame_word(GIB, GIB, 7) | 2];
    for word in top {
        let pool = Pool::with(2, word);
        let at = 2 * GIB;
        assert_eq!((pool.map(at, PAGE), pool.map(at, GIB), pool.unmap(at), pool.query(at)), (Err(8), Err(8), Err(8), Err(8)));
    }
    // a 1 GiB frame stands well in the root of three levels, but no frame stands in the root of four
    let mut pool = Pool::with(2, frame_word(0, GIB, 7));
    assert_eq!((pool.query(2 * GIB + 5), pool.audit()), (Ok(2 * GIB), Ok((5, 5))));
    pool.setup.levels = 4;
    assert_eq!((pool.query(2 << 39), pool.audit()), (Err(8), Err(8)));
}

#[test]
fn the_first_finding_from_the_top() {
    // a frame stops the walk of a map before anything below
    let pool = Pool::with(512 + 1, frame_word(0, MIB2, 0));
    assert_eq!(pool.map(MIB2 + PAGE, PAGE), Err(6));
    // a damaged word above a frame
    let pool = Pool::with(0, table(1) + 4);
    assert_eq!((pool.map(0, PAGE), pool.unmap(0), pool.query(0)), (Err(8), Err(8), Err(8)));
    // 10 before the free list is looked at
    let mut pool = Pool::new();
    pool.setup.free = 7;
    assert_eq!((pool.unmap(MIB2 + PAGE), pool.unmap(2 * MIB2)), (Err(10), Err(9)));
}

#[test]
fn frames_in_the_pool() {
    let page = |base| Pool::with(1024 + 9, frame_word(base, PAGE, 7));
    let block = |base| Pool::with(512 + 9, frame_word(base, MIB2, 7));
    let large = |base| Pool::with(9, frame_word(base, GIB, 7));
    // the audit refuses them; query and unmap take them for frames, and without them the pool is good
    for (pool, at, size) in
        [(page(P), 9 * PAGE, PAGE), (page(P + 7 * PAGE), 9 * PAGE, PAGE), (block(P), 9 * MIB2, MIB2), (large(P), 9 * GIB, GIB)]
    {
        assert_eq!(
            (pool.audit(), pool.query(at + size - 1), pool.map(at, size), pool.unmap(at)),
            (Err(8), Ok(at), Err(6), Ok(0))
        );
    }
    // half open
    for pool in [page(P + 8 * PAGE), page(P - PAGE), block(P - MIB2), block(P + MIB2), large(P - GIB), large(P + GIB)] {
        assert_eq!(pool.audit(), Ok((5, 5)));
    }
}

#[test]
fn the_same_table_twice() {
    // table 1 names itself: the walk to a page comes to it again, a 2 MiB map finds a table at its target
    let pool = Pool::with(512 + 2, table(1));
    let at = 2 * MIB2;
    let empty = at + 7 * PAGE;
    assert_eq!((pool.map(empty, PAGE), pool.unmap(empty), pool.query(empty)), (Err(8), Err(8), Err(8)));
    assert_eq!((pool.map(at, PAGE), pool.unmap(at), pool.query(at), pool.map(at, MIB2)), (Err(8), Err(8), Err(8), Err(6)));
    assert_eq!(pool.audit(), Err(8));
    // two entries name table 2: no walk comes to it twice, but the audit does
    let pool = Pool::with(512 + 2, table(2));
    assert_eq!(
        (pool.query(at), pool.query(at + 5 * PAGE), pool.map(at + 5 * PAGE, PAGE), pool.unmap(at)),
        (Ok(at), Err(9), Ok(0), Ok(0))
    );
    assert_eq!(pool.audit(), Err(8));
    // a table of another level, in which words mean something else
    let pool = Pool::with(1, table(2));
    assert_eq!((pool.query(GIB), pool.audit()), (Err(8), Err(8)));
}

#[test]
fn tables_to_be_taken() {
    for (list, one, two) in [
        ([7, 6, 5, 0, 0, 0, 0, 0], Ok(1), Ok(2)),
        ([7, 6, 0, 0, 0, 0, 0, 0], Err(8), Err(8)),
        ([7, 6, 8, 0, 0, 0, 0, 0], Err(8), Err(8)),
        ([7, 6, u32::MAX, 0, 0, 0, 0, 0], Err(8), Err(8)),
        ([7, 0, 5, 0, 0, 0, 0, 0], Ok(1), Err(8)),
        ([7, 5, 5, 0, 0, 0, 0, 0], Ok(1), Err(8)),
        ([5, 6, 5, 0, 0, 0, 0, 0], Ok(1), Ok(2)),
        // table 1 is on the path of the first map only
        ([7, 6, 1, 0, 0, 0, 0, 0], Err(8), Ok(2)),
        ([9, 9, 3, 4, 5, 6, 7, 7], Ok(1), Err(8)),
    ] {
        let pool = Pool::with_list(list, 3);
        assert_eq!((pool.map(2 * MIB2, PAGE), pool.map(2 * GIB, PAGE)), (one, two), "{list:?}");
        assert_eq!(pool.map(2 * PAGE, PAGE), Ok(0));
    }
    // 7 comes before a look at the list
    let pool = Pool::with_list([0; 8], 1);
    assert_eq!((pool.map(2 * GIB, PAGE), pool.map(2 * MIB2, PAGE)), (Err(7), Err(8)));
}

#[test]
fn a_taken_table_is_wiped() {
    let mut pool = Pool::with(512 * 5 + 77, 5);
    assert_eq!(pool.audit(), Err(8));
    let (setup, answer) = map(pool.setup, &mut pool.words, &mut [], &pool.list, 2 * MIB2, 0, PAGE, 0);
    pool.setup = setup;
    assert_eq!((answer, pool.audit()), (Ok(1), Ok((6, 5))));
}

#[test]
fn giving_back_too_many() {
    // the page at 1 GiB gives back tables 3 and 4; the others nothing
    for (free, answer) in [(3, Ok(2)), (5, Ok(2)), (6, Err(8)), (7, Err(8))] {
        let pool = Pool::with_list([1; 8], free);
        assert_eq!((pool.unmap(GIB), pool.unmap(0), pool.unmap(MIB2)), (answer, Ok(0), Ok(0)));
    }
}

#[test]
fn what_the_audit_refuses() {
    // free numbers
    for list in [[7, 6, 0], [7, 6, 8], [7, 6, u32::MAX], [7, 6, 1], [7, 6, 6], [5, 5, 5]] {
        assert_eq!(Pool::with_list([list[0], list[1], list[2], 1, 1, 1, 1, 1], 3).audit(), Err(8));
    }
    assert_eq!(Pool::with_list([5, 7, 6, 1, 1, 9, 9, 9], 3).audit(), Ok((5, 4)));
    // free + reached = n
    assert_eq!(Pool::with_list([7, 6, 5, 1, 1, 1, 1, 1], 2).audit(), Err(8));
    assert_eq!(Pool::with_list([7, 6, 5, 1, 1, 1, 1, 1], 4).audit(), Err(8));
    // a free table that is not zero
    assert_eq!(Pool::with(512 * 8 - 1, 1).audit(), Err(8));
    // an empty table, which is free no longer
    let mut pool = Pool::with(512 + 2, table(5));
    pool.setup.free = 2;
    assert_eq!(pool.audit(), Err(8));
    pool.words[512 * 5] = frame_word(0, PAGE, 0);
    assert_eq!(pool.audit(), Ok((6, 5)));
    // a table reached that is free as well
    pool.setup.free = 3;
    assert_eq!(pool.audit(), Err(8));
}
