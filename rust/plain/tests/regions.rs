//! Pools whose tables stand in two regions, and the call that adds the second.

use plain::*;

const P: u64 = 0x4000_0000;
const Q: u64 = 0x5000_0000;
const F: u64 = 0x8000_0000;
const PAGE: u64 = 4096;
const MIB2: u64 = 1 << 21;
const GIB: u64 = 1 << 30;

/// A pool with its memory.
#[derive(Clone, Debug, PartialEq, Eq)]
struct Pool {
    setup: Setup,
    words: Vec<u64>,
    second: Vec<u64>,
    list: Vec<u32>,
}

impl Pool {
    /// Memory for so many tables in each region, with something in it.
    fn lent(tables: usize, second_tables: usize) -> Pool {
        let (words, second) = (vec![7; 512 * tables], vec![7; 512 * second_tables]);
        Pool { setup: Setup::default(), words, second, list: vec![7; tables + second_tables] }
    }

    fn format(&mut self, levels: u64, base: u64, tables: u64, second_base: u64, second_tables: u64) -> Result<(), u64> {
        let Pool { words, second, list, .. } = self;
        let (setup, answer) = format(levels, base, tables, second_base, second_tables, 4096, words, second, list);
        self.setup = setup;
        answer.map_err(Refusal::number)
    }

    fn new(levels: u64, tables: u64, second_tables: u64) -> Pool {
        let mut pool = Pool::lent(tables as usize, second_tables as usize);
        pool.format(levels, P, tables, if second_tables == 0 { 0 } else { Q }, second_tables).unwrap();
        pool
    }

    /// The same pool, with memory for so many tables in a second region and a list that has places for them.
    fn with_room(&self, second_tables: usize) -> Pool {
        let mut pool = self.clone();
        pool.second = vec![7; 512 * second_tables];
        pool.list.resize(self.setup.tables as usize + second_tables, 9);
        pool
    }

    /// A refusal leaves everything as it was.
    fn kept<A>(&self, before: &Pool, answer: Result<A, Refusal>) -> Result<A, u64> {
        if answer.is_err() {
            assert_eq!(self, before);
        }
        answer.map_err(Refusal::number)
    }

    fn add(&mut self, base: u64, tables: u64) -> Result<(), u64> {
        let before = self.clone();
        let (setup, answer) = add(self.setup, &self.words, &mut self.second, &mut self.list, base, tables);
        self.setup = setup;
        self.kept(&before, answer)
    }

    fn map(&mut self, address: u64, frame: u64, size: u64) -> Result<u64, u64> {
        let before = self.clone();
        let (setup, answer) = map(self.setup, &mut self.words, &mut self.second, &self.list, address, frame, size, 3);
        self.setup = setup;
        self.kept(&before, answer)
    }

    fn unmap(&mut self, address: u64) -> Result<u64, u64> {
        let before = self.clone();
        let (setup, answer) = unmap(self.setup, &mut self.words, &mut self.second, &mut self.list, address);
        self.setup = setup;
        self.kept(&before, answer.map(|removed| removed.given))
    }

    fn query(&self, address: u64) -> Result<u64, u64> {
        query(self.setup, &self.words, &self.second, &self.list, address).map(|found| found.frame).map_err(Refusal::number)
    }

    fn audit(&self) -> Result<(u64, u64), u64> {
        let answer = audit(self.setup, &self.words, &self.second, &self.list);
        answer.map(|counts| (counts.tables, counts.mappings)).map_err(Refusal::number)
    }
}

/// The numbers of the words that are not zero, in the first run and in the second.
fn used(pool: &Pool) -> (Vec<usize>, Vec<usize>) {
    let places = |words: &[u64]| (0..words.len()).filter(|&i| words[i] != 0).collect();
    (places(&pool.words), places(&pool.second))
}

#[test]
fn tables_of_both_regions_in_one_map() {
    let mut pool = Pool::new(3, 2, 3);
    assert_eq!((pool.setup.free, &pool.list[..]), (4, &[4, 3, 2, 1, 0][..]));
    assert_eq!(pool.map(0, F, PAGE), Ok(2));
    assert_eq!((pool.words[0], pool.words[512], pool.second[0]), (P + 4096 + 3, Q + 3, 0x0040_0000_8000_07FF));
    assert_eq!(pool.map(GIB, F, PAGE), Ok(2));
    assert_eq!((pool.words[1], pool.second[512], pool.second[1024]), (Q + 4096 + 3, Q + 2 * 4096 + 3, 0x0040_0000_8000_07FF));
    assert_eq!((pool.audit(), pool.map(2 * GIB, F, PAGE)), (Ok((5, 2)), Err(7)));
    // they come back and are taken again, the other way round
    assert_eq!((pool.unmap(0), &pool.list[..2]), (Ok(2), &[2, 1][..]));
    assert_eq!((pool.unmap(GIB), &pool.list[..4]), (Ok(2), &[2, 1, 4, 3][..]));
    assert_eq!((pool.audit(), used(&pool)), (Ok((1, 0)), (vec![], vec![])));
    assert_eq!(pool.map(0, F, PAGE), Ok(2));
    assert_eq!(pool.map(MIB2, F, PAGE), Ok(1));
    assert_eq!((pool.words[0], pool.second[512], pool.second[513]), (Q + 4096 + 3, Q + 2 * 4096 + 3, P + 4096 + 3));
    assert_eq!((pool.query(MIB2 + 5), pool.audit()), (Ok(F), Ok((4, 2))));
}

#[test]
fn regions_that_touch_and_regions_that_overlap() {
    let format = |base, tables: u64, second_base, second_tables: u64| {
        let mut pool = Pool::lent(tables as usize, second_tables.min(600) as usize);
        let answer = pool.format(3, base, tables, second_base, second_tables);
        if answer.is_err() {
            assert_eq!(pool, Pool::lent(tables as usize, second_tables.min(600) as usize));
        }
        answer
    };
    for (second_base, answer) in [
        (P + 2 * PAGE, Ok(())),
        (P - 3 * PAGE, Ok(())),
        (P + PAGE, Err(1)),
        (P - 2 * PAGE, Err(1)),
        (P, Err(1)),
        (0, Ok(())),
        (LIMIT - 3 * PAGE, Ok(())),
        (LIMIT - 2 * PAGE, Err(1)),
        (Q + 1, Err(1)),
        (u64::MAX - 4095, Err(1)),
    ] {
        assert_eq!(format(P, 2, second_base, 3), answer, "{second_base:x}");
    }
    // without a second region its base is 0
    assert_eq!((format(P, 2, 0, 0), format(P, 2, Q, 0)), (Ok(()), Err(1)));
    // together at most 512
    assert_eq!((format(P, 1, Q, 511), format(P, 2, Q, 510), format(P, 256, Q, 256)), (Ok(()), Ok(()), Ok(())));
    assert_eq!((format(P, 2, Q, 511), format(P, 1, Q, 512), format(P, 1, Q, u64::MAX)), (Err(1), Err(1), Err(1)));
    // where they touch, the first word past one region names a table of the other
    for (second_base, last) in [(P + 2 * PAGE, P + 4 * PAGE), (P - 3 * PAGE, P - PAGE)] {
        let mut pool = Pool::lent(2, 3);
        pool.format(3, P, 2, second_base, 3).unwrap();
        assert_eq!((pool.map(0, F, PAGE), pool.map(PAGE, last, PAGE), pool.audit()), (Ok(2), Err(11), Ok((3, 1))));
        pool.words[513] = last + 3;
        assert_eq!((pool.query(MIB2), pool.audit()), (Err(9), Err(8)));
    }
}

#[test]
fn numbers_and_lengths_of_the_second_region() {
    let good = Pool::new(3, 2, 3);
    let refused = |change: &dyn Fn(&mut Pool)| {
        let mut pool = good.clone();
        change(&mut pool);
        let answers = [pool.map(0, F, PAGE), pool.unmap(0), pool.query(0), pool.audit().map(|_| 0)];
        assert_eq!(answers.contains(&Err(1)), answers == [Err(1); 4]);
        answers == [Err(1); 4]
    };
    assert!(!refused(&|_| {}));
    let changes: [&dyn Fn(&mut Pool); 12] = [
        &|pool| pool.setup.second_tables = 0,
        &|pool| pool.setup.second_base = 0x1001,
        &|pool| pool.setup.second_base = P + PAGE,
        &|pool| pool.setup.second_base = P - 2 * PAGE,
        &|pool| pool.setup.second_base = LIMIT - 2 * PAGE,
        &|pool| pool.setup.second_tables = 2,
        &|pool| pool.setup.second_tables = u64::MAX,
        &|pool| pool.setup.free = 5,
        &|pool| pool.second.truncate(1535),
        &|pool| pool.second.push(0),
        &|pool| pool.list.truncate(2),
        &|pool| pool.list.push(0),
    ];
    for (i, change) in changes.iter().enumerate() {
        assert!(refused(change), "change {i}");
    }
    // a second run without a second region
    let mut pool = Pool::new(3, 2, 0);
    pool.second = vec![0; 512];
    assert_eq!((pool.audit(), pool.format(3, P, 2, 0, 0)), (Err(1), Err(1)));
}

#[test]
fn words_that_name_the_other_regions_end() {
    for (word, damaged) in [
        (P + 2 * PAGE + 3, true),
        (P - PAGE + 3, true),
        (P + 3, true),
        (Q + 3 * PAGE + 3, true),
        (Q - PAGE + 3, true),
        (Q + 2 * PAGE + 3, false),
        (Q + 3, false),
    ] {
        let mut pool = Pool::new(3, 2, 3);
        assert_eq!(pool.map(0, F, PAGE), Ok(2));
        pool.words[513] = word;
        assert_eq!(pool.query(MIB2) == Err(8), damaged, "{word:x}");
        assert_eq!(pool.audit(), Err(8));
    }
}

#[test]
fn never_a_frame_of_either_region() {
    let mut pool = Pool::new(3, 2, 3);
    for (frame, size) in [(P, PAGE), (P + PAGE, PAGE), (Q, PAGE), (Q + 2 * PAGE, PAGE), (Q, MIB2), (P, GIB)] {
        assert_eq!(pool.map(0, frame, size), Err(11));
    }
    for (address, frame, size) in [(0, Q + 3 * PAGE, PAGE), (PAGE, Q - PAGE, PAGE), (MIB2, Q - MIB2, MIB2)] {
        pool.map(address, frame, size).unwrap();
    }
    assert_eq!(pool.audit(), Ok((3, 3)));
    for (at, frame, size) in [(2, Q + PAGE, PAGE), (2, P + PAGE, PAGE), (2, Q + 3 * PAGE, PAGE)] {
        let mut pool = pool.clone();
        pool.second[at] = frame_word(frame, size, 3);
        assert_eq!(pool.audit(), if frame == Q + 3 * PAGE { Ok((3, 4)) } else { Err(8) });
        assert_eq!(pool.query(2 * PAGE), Ok(frame));
    }
}

/// The pool of the document's case 4: table 3 is free.
fn one_short() -> Pool {
    let mut pool = Pool::new(3, 4, 0);
    pool.map(0, F, PAGE).unwrap();
    pool.map(PAGE, F + PAGE, PAGE).unwrap();
    pool.map(MIB2, F + MIB2, MIB2).unwrap();
    pool
}

#[test]
fn the_customers_story() {
    let mut pool = one_short();
    assert_eq!(pool.map(GIB, F, PAGE), Err(7));
    pool = pool.with_room(2);
    let before = pool.clone();
    assert_eq!(pool.add(Q, 2), Ok(()));
    assert_eq!(pool.setup, Setup { levels: 3, base: P, tables: 4, free: 3, second_base: Q, second_tables: 2, granule: 4096 });
    assert_eq!((&pool.list[..], &pool.words), (&[3, 5, 4, 0, 9, 9][..], &before.words));
    assert!(pool.second.iter().all(|&word| word == 0));
    assert_eq!(pool.audit(), Ok((3, 3)));
    assert_eq!(pool.map(GIB, F, PAGE), Ok(2));
    assert_eq!((pool.words[1], pool.second[0]), (Q + 3, Q + PAGE + 3));
    assert_eq!((pool.query(GIB), pool.audit()), (Ok(F), Ok((5, 4))));
    assert_eq!((pool.map(2 * GIB, F, MIB2), pool.map(3 * GIB, F, MIB2)), (Ok(1), Err(7)));
}

#[test]
fn an_add_refuses_1() {
    let pool = one_short().with_room(2);
    for (base, tables) in [
        (Q, 0),
        (0, 0),
        (P, 2),
        (P + 3 * PAGE, 2),
        (P - PAGE, 2),
        (Q + 1, 2),
        (LIMIT - PAGE, 2),
        (u64::MAX - 4095, 2),
        (Q, 1),
        (Q, 3),
        (Q, 509),
        (Q, u64::MAX - 3),
    ] {
        assert_eq!(pool.clone().add(base, tables), Err(1), "{base:x} {tables}");
    }
    for base in [0, P + 4 * PAGE, P - 2 * PAGE, LIMIT - 2 * PAGE] {
        assert_eq!(pool.clone().add(base, 2), Ok(()), "{base:x}");
    }
    let refused = |change: &dyn Fn(&mut Pool)| {
        let mut pool = pool.clone();
        change(&mut pool);
        pool.add(Q, 2) == Err(1)
    };
    assert!(!refused(&|_| {}));
    let changes: [&dyn Fn(&mut Pool); 11] = [
        &|pool| pool.setup.levels = 2,
        &|pool| pool.setup.base = Q,
        // the limit of the old setup
        &|pool| pool.setup.free = 4,
        // a region is there
        &|pool| pool.setup.second_base = Q,
        &|pool| (pool.setup.second_base, pool.setup.second_tables) = (Q, 2),
        &|pool| pool.words.truncate(2047),
        &|pool| pool.second.truncate(1023),
        &|pool| pool.second.push(0),
        &|pool| pool.list.truncate(5),
        &|pool| pool.list.truncate(4),
        &|pool| pool.list.push(0),
    ];
    for (i, change) in changes.iter().enumerate() {
        assert!(refused(change), "change {i}");
    }
    // after a format with two regions
    let mut pool = Pool::new(3, 2, 3);
    assert_eq!(pool.add(Q + GIB, 3), Err(1));
    // 512 tables in all
    assert_eq!(Pool::new(3, 4, 0).with_room(508).add(Q, 508), Ok(()));
    assert_eq!(Pool::new(3, 4, 0).with_room(509).add(Q, 509), Err(1));
}

#[test]
fn an_add_refuses_8_for_the_reachable_tree_alone() {
    let add = |change: &dyn Fn(&mut Pool)| {
        let mut pool = one_short().with_room(2);
        change(&mut pool);
        pool.add(Q, 2)
    };
    let table = |t: u64| P + PAGE * t + 3;
    assert_eq!(add(&|pool| pool.words[1024 + 9] = 5), Err(8));
    assert_eq!(add(&|pool| pool.words[511] = 5), Err(8));
    // a table of the region to come, and one past the first
    assert_eq!((add(&|pool| pool.words[514] = Q + 3), add(&|pool| pool.words[514] = table(4))), (Err(8), Err(8)));
    // reached twice, or again
    assert_eq!((add(&|pool| pool.words[1] = table(1)), add(&|pool| pool.words[514] = table(1))), (Err(8), Err(8)));
    // an empty table, free lists of any kind, a free table that is not zero, a frame in the first region
    assert_eq!(add(&|pool| pool.words[514] = table(3)), Ok(()));
    assert_eq!(add(&|pool| pool.list[..4].fill(u32::MAX)), Ok(()));
    assert_eq!(add(&|pool| pool.setup.free = 3), Ok(()));
    assert_eq!(add(&|pool| pool.words[1536] = 5), Ok(()));
    assert_eq!(add(&|pool| pool.words[1024 + 9] = frame_word(P, PAGE, 3)), Ok(()));
    // 8 before 11, wherever the two stand
    assert_eq!(add(&|pool| (pool.words[1024 + 8], pool.words[511]) = (frame_word(Q, PAGE, 3), 5)), Err(8));
}

#[test]
fn an_add_refuses_11() {
    let mut pool = one_short();
    for (address, frame, size) in [(9 * PAGE, Q, PAGE), (3 * MIB2, Q + MIB2, MIB2), (7 * GIB, 3 * GIB, GIB)] {
        pool.map(address, frame, size).unwrap();
    }
    let pool = pool.with_room(2);
    for (base, answer) in [
        (Q, Err(11)),
        (Q - PAGE, Err(11)),
        (Q - 2 * PAGE, Ok(())),
        (Q + PAGE, Ok(())),
        (Q + MIB2 - PAGE, Err(11)),
        (Q + MIB2 - 2 * PAGE, Ok(())),
        (Q + 2 * MIB2 - PAGE, Err(11)),
        (Q + 2 * MIB2, Ok(())),
        (3 * GIB + 5 * PAGE, Err(11)),
        (4 * GIB, Ok(())),
        (F, Err(11)),
    ] {
        assert_eq!(pool.clone().add(base, 2), answer, "{base:x}");
    }
}
