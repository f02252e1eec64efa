//! The granule of 16 KiB: 2048 entries, three levels, frames of 16 KiB and 32 MiB, a space of 2^47.

use plain::*;

const P: u64 = 0x4000_0000;
const Q: u64 = 0x5000_0000;
const F: u64 = 0x8000_0000;
const KIB4: u64 = 1 << 12;
const KIB16: u64 = 1 << 14;
const MIB2: u64 = 1 << 21;
const MIB32: u64 = 1 << 25;
const GIB: u64 = 1 << 30;
const GIB64: u64 = 1 << 36;
const SPACE: u64 = 1 << 47;

/// A pool with its memory.
#[derive(Clone, Debug, PartialEq, Eq)]
struct Pool {
    setup: Setup,
    words: Vec<u64>,
    second: Vec<u64>,
    list: Vec<u32>,
}

impl Pool {
    /// Memory for so many tables in each region, with something in it.
    fn lent(tables: usize, second_tables: usize) -> Pool {
        let (words, second) = (vec![7; 2048 * tables], vec![7; 2048 * second_tables]);
        Pool { setup: Setup::default(), words, second, list: vec![7; tables + second_tables] }
    }

    fn format(
        &mut self, levels: u64, base: u64, tables: u64, second_base: u64, second_tables: u64, granule: u64,
    ) -> Result<(), u64> {
        let Pool { words, second, list, .. } = self;
        let (setup, answer) = format(levels, base, tables, second_base, second_tables, granule, words, second, list);
        self.setup = setup;
        answer.map_err(Refusal::number)
    }

    fn new(tables: u64, second_tables: u64) -> Pool {
        let mut pool = Pool::lent(tables as usize, second_tables as usize);
        pool.format(3, P, tables, if second_tables == 0 { 0 } else { Q }, second_tables, KIB16).unwrap();
        pool
    }

    /// Two pages and a frame of 32 MiB, in a pool of four tables: table 3 is free.
    fn three_mappings() -> Pool {
        let mut pool = Pool::new(4, 0);
        assert_eq!(
            (pool.map(0, F, KIB16), pool.map(KIB16, F + KIB16, KIB16), pool.map(MIB32, F + MIB32, MIB32)),
            (Ok(2), Ok(0), Ok(0))
        );
        pool
    }

    /// The same pool, with memory for so many tables in a second region and a list that has places for them.
    fn with_room(&self, second_tables: usize) -> Pool {
        let mut pool = self.clone();
        pool.second = vec![7; 2048 * second_tables];
        pool.list.resize(self.setup.tables as usize + second_tables, 9);
        pool
    }

    /// A refusal leaves everything as it was.
    fn kept<A>(&self, before: &Pool, answer: Result<A, Refusal>) -> Result<A, u64> {
        if answer.is_err() {
            assert_eq!(self, before);
        }
        answer.map_err(Refusal::number)
    }

    fn add(&mut self, base: u64, tables: u64) -> Result<(), u64> {
        let before = self.clone();
        let (setup, answer) = add(self.setup, &self.words, &mut self.second, &mut self.list, base, tables);
        self.setup = setup;
        self.kept(&before, answer)
    }

    fn map(&mut self, address: u64, frame: u64, size: u64) -> Result<u64, u64> {
        let before = self.clone();
        let (setup, answer) = map(self.setup, &mut self.words, &mut self.second, &self.list, address, frame, size, 3);
        self.setup = setup;
        self.kept(&before, answer)
    }

    fn unmap(&mut self, address: u64) -> Result<Removed, u64> {
        let before = self.clone();
        let (setup, answer) = unmap(self.setup, &mut self.words, &mut self.second, &mut self.list, address);
        self.setup = setup;
        self.kept(&before, answer)
    }

    fn query(&self, address: u64) -> Result<Found, u64> {
        query(self.setup, &self.words, &self.second, &self.list, address).map_err(Refusal::number)
    }

    fn hole(&self, address: u64) -> Option<(u64, u64)> {
        let hole = query(self.setup, &self.words, &self.second, &self.list, address).unwrap_err().hole();
        hole.map(|hole| (hole.base, hole.size))
    }

    fn audit(&self) -> Result<(u64, u64), u64> {
        let answer = audit(self.setup, &self.words, &self.second, &self.list);
        answer.map(|counts| (counts.tables, counts.mappings)).map_err(Refusal::number)
    }

    /// The words of the first run that are not zero, with their places.
    fn used(&self) -> Vec<(usize, u64)> {
        self.words.iter().copied().enumerate().filter(|&(_, word)| word != 0).collect()
    }
}

#[test]
fn the_cases_in_large() {
    let mut pool = Pool::three_mappings();
    assert_eq!(pool.setup, Setup { levels: 3, base: P, tables: 4, free: 1, granule: KIB16, ..Setup::default() });
    let (two, one) = ([(4096, 0x0040_0000_8000_07FF), (4097, 0x0040_0000_8000_47FF)], (2049, 0x0040_0000_8200_07FD));
    assert_eq!(pool.used(), [&[(0, 0x4000_4003), (2048, 0x4000_8003), one][..], &two].concat());
    assert_eq!(pool.audit(), Ok((3, 3)));
    assert_eq!((pool.map(MIB32 + KIB16, F, KIB16), pool.map(0, F, MIB32), pool.map(GIB64, F, KIB16)), (Err(6), Err(6), Err(7)));
    assert_eq!(pool.query(MIB32 + 0x12345), Ok(Found { base: MIB32, frame: F + MIB32, size: MIB32, attributes: 3 }));
    assert_eq!((pool.unmap(MIB32 + KIB16), pool.unmap(3 * KIB16)), (Err(10), Err(9)));
    assert_eq!(pool.unmap(0), Ok(Removed { frame: F, size: KIB16, attributes: 3, given: 0 }));
    assert_eq!(pool.unmap(KIB16), Ok(Removed { frame: F + KIB16, size: KIB16, attributes: 3, given: 1 }));
    assert_eq!(pool.unmap(MIB32), Ok(Removed { frame: F + MIB32, size: MIB32, attributes: 3, given: 1 }));
    assert_eq!((pool.used(), &pool.list[..], pool.audit()), (vec![], &[3, 2, 1, 0][..], Ok((1, 0))));
    // the last page of the space, and of memory
    assert_eq!((pool.map(SPACE - KIB16, LIMIT - KIB16, KIB16), pool.map(SPACE, F, KIB16)), (Ok(2), Err(4)));
    assert_eq!(pool.used(), [(2047, 0x4000_4003), (4095, 0x4000_8003), (6143, 0x0040_FFFF_FFFF_C7FF)]);
    assert_eq!((pool.query(SPACE - 1).map(|found| found.base), pool.query(SPACE)), (Ok(SPACE - KIB16), Err(4)));
    // bits 46:36, 35:25 and 24:14
    let mut pool = Pool::new(4, 0);
    assert_eq!(pool.map(5 << 36 | 7 << 25 | 9 << 14, F, KIB16), Ok(2));
    assert_eq!(pool.used(), [(5, 0x4000_4003), (2048 + 7, 0x4000_8003), (4096 + 9, 0x0040_0000_8000_07FF)]);
}

#[test]
fn holes() {
    let mut pool = Pool::new(4, 0);
    assert_eq!((pool.hole(0), pool.hole(SPACE - 1)), (Some((0, GIB64)), Some((SPACE - GIB64, GIB64))));
    pool.map(0, F, KIB16).unwrap();
    assert_eq!(
        (pool.hole(GIB64), pool.hole(MIB32 + 5), pool.hole(2 * KIB16 - 1)),
        (Some((GIB64, GIB64)), Some((MIB32, MIB32)), Some((KIB16, KIB16)))
    );
    assert_eq!(
        unmap(pool.setup, &mut pool.words, &mut [], &mut pool.list, MIB32).1.unwrap_err().hole(),
        Some(Hole { base: MIB32, size: MIB32 })
    );
    pool.map(MIB32, F, MIB32).unwrap();
    pool.unmap(0).unwrap();
    assert_eq!(pool.hole(0), Some((0, MIB32)));
    pool.unmap(MIB32).unwrap();
    assert_eq!((pool.hole(0), pool.hole(SPACE)), (Some((0, GIB64)), None));
}

#[test]
fn sizes_limits_and_multiples() {
    let pool = Pool::three_mappings();
    for size in [KIB4, MIB2, GIB, GIB64, 0, 8192, 1 << 24, SPACE] {
        assert_eq!(pool.clone().map(0, F, size), Err(2), "{size:x}");
    }
    for size in SIZES_16 {
        let mut fresh = Pool::new(4, 0);
        assert_eq!(fresh.map(SPACE - size, LIMIT - size, size), Ok(if size == KIB16 { 2 } else { 1 }));
        for (address, frame, number) in [
            (SPACE - size + 1, F, 4),
            (SPACE, F, 4),
            (0u64.wrapping_sub(size), F, 4),
            (0, LIMIT - size + 1, 4),
            (0, LIMIT - size + KIB4, 4),
            (0, 0u64.wrapping_sub(size), 4),
            (KIB4, F, 5),
            (size / 2, F, 5),
            (0, F + KIB4, 5),
            (0, F + size / 2, 5),
        ] {
            assert_eq!(fresh.map(address, frame, size), Err(number), "{address:x} {frame:x} {size:x}");
        }
    }
    let mut pool = pool;
    for (address, number) in [(KIB4, 5), (8192, 5), (1, 5), (SPACE - KIB4, 5), (SPACE, 4), (SPACE + 1, 4), (SPACE - KIB16, 9)] {
        assert_eq!(pool.unmap(address), Err(number));
    }
    // with the smaller granule there are no frames of these sizes
    let (mut words, mut list) = (vec![0; 2048], vec![0; 4]);
    let (setup, _) = format(3, P, 4, 0, 0, KIB4, &mut words, &mut [], &mut list);
    for size in SIZES_16 {
        assert_eq!(map(setup, &mut words, &mut [], &list, 0, F, size, 3).1, Err(Refusal::Size));
    }
}

#[test]
fn never_the_pool() {
    let mut pool = Pool::new(4, 2);
    for (frame, size) in [(P, KIB16), (P + 3 * KIB16, KIB16), (P, MIB32), (Q, KIB16), (Q + KIB16, KIB16), (Q, MIB32)] {
        assert_eq!(pool.map(0, frame, size), Err(11));
    }
    for (i, (frame, size)) in
        [(P + 4 * KIB16, KIB16), (P - KIB16, KIB16), (Q + 2 * KIB16, KIB16), (P - MIB32, MIB32), (Q - MIB32, MIB32)]
            .into_iter()
            .enumerate()
    {
        pool.map(i as u64 * size, frame, size).unwrap();
    }
    assert_eq!(pool.audit(), Ok((3, 5)));
    for frame in [P, P + 3 * KIB16] {
        let mut pool = Pool::three_mappings();
        pool.words[4096 + 9] = frame_word(frame, KIB16, 3);
        assert_eq!((pool.audit(), pool.query(9 * KIB16).map(|found| found.frame)), (Err(8), Ok(frame)));
    }
}

#[test]
fn words_that_say_nothing() {
    let refused = |at: usize, word: u64| {
        let mut pool = Pool::three_mappings();
        pool.words[at] = word;
        let answers = [pool.map(0, F, KIB16), pool.unmap(0).map(|_| 0), pool.query(5).map(|_| 0), pool.audit().map(|_| 0)];
        answers.iter().all(|&answer| answer == Err(8)) && pool.with_room(2).add(Q, 2) == Err(8)
    };
    let block = |base: u64, size: u64| frame_word(base, size, 3);
    // no frame stands in the root
    for word in [block(0, MIB32), block(F, MIB32), block(GIB64, MIB32), block(0, KIB16), block(GIB, GIB)] {
        assert!(refused(0, word), "{word:x}");
    }
    // tables stand at multiples of their size, and there are four
    for word in [P + 3, P + KIB4 + 3, P + 2 * KIB4 + 3, P + 5 * KIB4 + 3, P + 4 * KIB16 + 3, P - KIB16 + 3] {
        assert!(refused(0, word) && refused(2048, word), "{word:x}");
    }
    // table 1 names itself; frames of another level, and of the other granule where their base is no multiple
    for word in [P + KIB16 + 3, block(F, KIB16), block(F + MIB2, MIB2), block(F + KIB16, KIB16) & !2] {
        assert!(refused(2048, word), "{word:x}");
    }
    for word in [P + 3 * KIB16 + 3, block(F, MIB32), block(F + KIB4, KIB4), block(F + 2 * KIB4, KIB4), u64::MAX] {
        assert!(refused(4096, word), "{word:x}");
    }
    // a table is empty when all of its 2048 words are
    let mut pool = Pool::three_mappings();
    pool.words[4096 + 2047] = block(F, KIB16);
    assert_eq!((pool.unmap(0).unwrap().given, pool.unmap(KIB16).unwrap().given), (0, 0));
    let mut pool = Pool::three_mappings();
    pool.words[6144 + 2047] = 1;
    assert_eq!((pool.audit(), pool.map(2 * MIB32, F, KIB16), pool.audit()), (Err(8), Ok(1), Ok((4, 4))));
}

#[test]
fn setup_numbers_and_lengths() {
    let refused = |change: &dyn Fn(&mut Pool)| {
        let mut pool = Pool::three_mappings();
        change(&mut pool);
        let mut lent = pool.clone();
        let Setup { levels, base, tables, second_base, second_tables, granule, .. } = pool.setup;
        let format = lent.format(levels, base, tables, second_base, second_tables, granule);
        assert!(format.is_ok() || lent == Pool { setup: Setup::default(), ..pool.clone() });
        let answers = [pool.map(0, F, KIB16).err(), pool.unmap(0).err(), pool.query(0).err(), pool.audit().err()];
        assert_eq!(answers.contains(&Some(1)), answers == [Some(1); 4]);
        assert_eq!(answers == [Some(1); 4], format == Err(1));
        format == Err(1)
    };
    assert!(!refused(&|_| {}));
    for granule in [0, 1, 14, 4095, KIB4, 4097, 8192, 16383, 16385, 32768, 65536, 1 << 32 | KIB16, u64::MAX] {
        assert!(refused(&|pool| pool.setup.granule = granule), "{granule}");
    }
    // with lengths that are those of the smaller granule
    for granule in [0, 4095, 8192, 16383, KIB16, 65536] {
        assert!(refused(&|pool| (pool.setup.granule = granule, pool.words.truncate(2048)).1), "{granule}");
    }
    for levels in [0, 2, 4, 5] {
        assert!(refused(&|pool| pool.setup.levels = levels), "{levels}");
    }
    for base in [P + KIB4, P + 2 * KIB4, P + 1, LIMIT - 3 * KIB16, LIMIT - 4 * KIB16 + KIB4, u64::MAX - 16383] {
        assert!(refused(&|pool| pool.setup.base = base), "{base:x}");
    }
    assert!(!refused(&|pool| (pool.setup.base = LIMIT - 4 * KIB16, pool.words.fill(0)).1));
    for tables in [0, 3, 5, 16] {
        assert!(refused(&|pool| pool.setup.tables = tables), "{tables}");
    }
    assert!(refused(&|pool| pool.words.truncate(8191)) && refused(&|pool| pool.words.push(0)));
    // 512 tables, and not 513
    for (tables, answer) in [(512, Ok(())), (513, Err(1))] {
        assert_eq!(Pool::lent(tables as usize, 0).format(3, P, tables, 0, 0, KIB16), answer);
    }
    assert_eq!(
        (Pool::lent(1, 511).format(3, P, 1, Q, 511, KIB16), Pool::lent(2, 511).format(3, P, 2, Q, 511, KIB16)),
        (Ok(()), Err(1))
    );
}

/// A pool of one granule under the number of the other: 1 where a length does not fit, and else what its words say then.
#[test]
fn mixed_up() {
    // four tables of 4 KiB are one of 16 KiB
    let (mut words, mut list) = (vec![0; 2048], vec![0; 4]);
    let (setup, _) = format(3, P, 4, 0, 0, KIB4, &mut words, &mut [], &mut list);
    let (setup, answer) = map(setup, &mut words, &mut [], &list, 0, F, KIB4, 3);
    assert_eq!(answer, Ok(2));
    assert_eq!(audit(Setup { granule: KIB16, ..setup }, &words, &[], &list), Err(Refusal::Setup));
    let mut pool = Pool { setup: Setup { tables: 1, free: 0, granule: KIB16, ..setup }, words, second: vec![], list: vec![0] };
    assert_eq!((pool.query(0), pool.query(512 << 36), pool.hole(2047 << 36)), (Err(8), Err(8), Some((2047 << 36, GIB64))));
    assert_eq!(pool.map(2047 << 36, F, MIB32), Err(7));
    // two tables of 16 KiB are eight of 4 KiB, and table 1 is table 4 of those
    let mut pool = Pool::new(2, 0);
    assert_eq!(pool.map(0, F, MIB32), Ok(1));
    assert_eq!(audit(Setup { granule: KIB4, ..pool.setup }, &pool.words, &[], &pool.list), Err(Refusal::Setup));
    pool.setup = Setup { tables: 8, free: 0, granule: KIB4, ..pool.setup };
    pool.list.resize(8, 0);
    assert_eq!(pool.query(MIB2 - 1), Ok(Found { base: 0, frame: F, size: MIB2, attributes: 3 }));
    assert_eq!((pool.audit(), pool.unmap(0).unwrap().given, pool.list[0]), (Err(8), 1, 4));
}

#[test]
fn two_regions_and_a_region_that_is_added() {
    for (second_base, answer) in [
        (P + 2 * KIB16, Ok(())),
        (P - 3 * KIB16, Ok(())),
        (0, Ok(())),
        (LIMIT - 3 * KIB16, Ok(())),
        (P + KIB16, Err(1)),
        (P - 2 * KIB16, Err(1)),
        (Q + KIB4, Err(1)),
        (Q + 2 * KIB4, Err(1)),
        (LIMIT - 2 * KIB16, Err(1)),
    ] {
        assert_eq!(Pool::lent(2, 3).format(3, P, 2, second_base, 3, KIB16), answer, "{second_base:x}");
    }
    let mut pool = Pool::new(2, 3);
    assert_eq!((pool.map(0, F, KIB16), pool.map(GIB64, F, KIB16), pool.audit()), (Ok(2), Ok(2), Ok((5, 2))));
    assert_eq!((pool.words[0], pool.words[2048], pool.second[0]), (P + KIB16 + 3, Q + 3, 0x0040_0000_8000_07FF));
    assert_eq!((pool.words[1], pool.second[2048]), (Q + KIB16 + 3, Q + 2 * KIB16 + 3));
    assert_eq!((pool.unmap(0).unwrap().given, &pool.list[..2]), (2, &[2, 1][..]));
    // the story: a map that got 7 is accepted after an add
    let mut pool = Pool::three_mappings();
    assert_eq!(pool.map(GIB64, F, KIB16), Err(7));
    let pool = pool.with_room(2);
    for base in [Q + KIB4, Q + 2 * KIB4, P, P + 3 * KIB16, P - KIB16, LIMIT - KIB16] {
        assert_eq!(pool.clone().add(base, 2), Err(1), "{base:x}");
    }
    for base in [F, F + KIB16, F - KIB16, F + MIB32 + 5 * KIB16, F + 2 * MIB32 - KIB16] {
        assert_eq!(pool.clone().add(base, 2), Err(11), "{base:x}");
    }
    for base in [0, P + 4 * KIB16, P - 2 * KIB16, F + 2 * MIB32, F + 2 * KIB16, LIMIT - 2 * KIB16] {
        assert_eq!(pool.clone().add(base, 2), Ok(()), "{base:x}");
    }
    let mut short = pool.clone();
    short.second.truncate(1024);
    assert_eq!((short.add(Q, 2), pool.clone().add(Q, 1)), (Err(1), Err(1)));
    let mut pool = pool;
    assert_eq!(pool.add(Q, 2), Ok(()));
    assert_eq!(pool.setup, Setup { levels: 3, base: P, tables: 4, free: 3, second_base: Q, second_tables: 2, granule: KIB16 });
    assert_eq!((&pool.list[..], pool.second.iter().all(|&word| word == 0)), (&[3, 5, 4, 0, 9, 9][..], true));
    assert_eq!((pool.map(GIB64, F, KIB16), pool.audit()), (Ok(2), Ok((5, 4))));
}
