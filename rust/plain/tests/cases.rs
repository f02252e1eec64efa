//! The document's cases, in its order, and the further cases that it names.

use plain::*;

const P: u64 = 0x4000_0000;
const F: u64 = 0x8000_0000;
const MIB2: u64 = 0x20_0000;

/// A pool with its memory.
struct Pool {
    setup: Setup,
    words: Vec<u64>,
    list: Vec<u32>,
}

impl Pool {
    fn new(levels: u64, tables: usize) -> Pool {
        let (mut words, mut list) = (vec![7; 512 * tables], vec![7; tables]);
        let (setup, answer) = format(levels, P, tables as u64, 0, 0, 4096, &mut words, &mut [], &mut list);
        assert_eq!(answer, Ok(()));
        Pool { setup, words, list }
    }

    /// A call, after which the setup goes on and a refusal has left everything as it was.
    fn call<A: Copy>(
        &mut self, call: impl FnOnce(Setup, &mut [u64], &mut [u32]) -> (Setup, Result<A, Refusal>),
    ) -> Result<A, u64> {
        let before = (self.setup, self.words.clone(), self.list.clone());
        let (setup, answer) = call(self.setup, &mut self.words, &mut self.list);
        self.setup = setup;
        if answer.is_err() {
            assert!(before == (self.setup, self.words.clone(), self.list.clone()));
        }
        answer.map_err(Refusal::number)
    }

    fn map(&mut self, address: u64, frame: u64, size: u64, attributes: u64) -> Result<u64, u64> {
        self.call(|setup, words, list| map(setup, words, &mut [], list, address, frame, size, attributes))
    }

    fn unmap(&mut self, address: u64) -> Result<Removed, u64> {
        self.call(|setup, words, list| unmap(setup, words, &mut [], list, address))
    }

    fn query(&self, address: u64) -> Result<Found, u64> {
        query(self.setup, &self.words, &[], &self.list, address).map_err(Refusal::number)
    }

    fn audit(&self) -> Result<Counts, u64> {
        audit(self.setup, &self.words, &[], &self.list).map_err(Refusal::number)
    }

    /// The words that are not zero, with their places.
    fn used(&self) -> Vec<(usize, u64)> {
        self.words.iter().copied().enumerate().filter(|&(_, word)| word != 0).collect()
    }
}

#[test]
fn the_eleven_cases() {
    // 1
    let mut pool = Pool::new(3, 4);
    assert_eq!(pool.list, [3, 2, 1, 0]);
    assert_eq!(pool.setup, Setup { levels: 3, base: P, tables: 4, free: 3, granule: 4096, ..Setup::default() });
    assert_eq!(pool.used(), []);
    // 2
    assert_eq!(pool.map(0, F, 4096, 3), Ok(2));
    assert_eq!(pool.setup.free, 1);
    assert_eq!(pool.used(), [(0, 0x4000_1003), (512, 0x4000_2003), (1024, 0x0040_0000_8000_07FF)]);
    // 3
    assert_eq!(pool.map(0x1000, 0x8000_1000, 4096, 5), Ok(0));
    assert_eq!(pool.words[1025], 0x8000_177F);
    // 4
    assert_eq!(pool.map(MIB2, 0x8020_0000, MIB2, 3), Ok(0));
    assert_eq!(pool.words[513], 0x0040_0000_8020_07FD);
    assert_eq!(pool.audit(), Ok(Counts { tables: 3, mappings: 3 }));
    // 5
    assert_eq!(pool.map(0x20_1000, F, 4096, 3), Err(6));
    assert_eq!(pool.map(0, F, MIB2, 3), Err(6));
    // 6
    assert_eq!(pool.map(0x4000_0000, F, 4096, 3), Err(7));
    // 7
    assert_eq!(pool.query(0x20_1234), Ok(Found { base: MIB2, frame: 0x8020_0000, size: MIB2, attributes: 3 }));
    // 8
    assert_eq!(pool.unmap(0x20_1000), Err(10));
    assert_eq!(pool.unmap(0x3000), Err(9));
    // 9
    assert_eq!(pool.unmap(0), Ok(Removed { frame: F, size: 4096, attributes: 3, given: 0 }));
    assert_eq!(pool.unmap(0x1000), Ok(Removed { frame: 0x8000_1000, size: 4096, attributes: 5, given: 1 }));
    assert_eq!((pool.list[1], pool.setup.free), (2, 2));
    // 10
    assert_eq!(pool.unmap(MIB2), Ok(Removed { frame: 0x8020_0000, size: MIB2, attributes: 3, given: 1 }));
    assert_eq!((pool.list[2], pool.setup.free), (1, 3));
    assert_eq!(pool.list, [3, 2, 1, 0]);
    assert_eq!(pool.used(), []);
    assert_eq!(pool.audit(), Ok(Counts { tables: 1, mappings: 0 }));
    // 11
    assert_eq!(pool.map(0x7F_FFFF_F000, F, 4096, 3), Ok(2));
    assert_eq!(pool.setup.free, 1);
    assert_eq!(pool.map(0x80_0000_0000, F, 4096, 3), Err(4));
}

#[test]
fn further_cases() {
    assert_eq!(Pool::new(3, 2).map(0, F, 4096, 3), Err(7));
    assert_eq!(Pool::new(4, 4).map(0, F, 4096, 3), Ok(3));
    let mut pool = Pool::new(3, 4);
    assert_eq!(pool.map(0, F, 4096, 11), Ok(2));
    assert_eq!(pool.words[1024] % 4096, 0x4C3);
}

#[test]
fn holes() {
    let hole = |pool: &Pool, address| query(pool.setup, &pool.words, &[], &pool.list, address).unwrap_err().hole();
    let sized = |base, size| Some(Hole { base, size });
    let mut pool = Pool::new(3, 4);
    assert_eq!(hole(&pool, 0), sized(0, 1 << 30));
    assert_eq!(hole(&pool, (1 << 39) - 1), sized(511 << 30, 1 << 30));
    pool.map(0, F, 4096, 3).unwrap();
    assert_eq!(hole(&pool, MIB2), sized(MIB2, MIB2));
    assert_eq!(hole(&pool, 0x2FFF), sized(0x2000, 4096));
    assert_eq!(unmap(pool.setup, &mut pool.words, &mut [], &mut pool.list, 0x2000).1.unwrap_err().hole(), sized(0x2000, 4096));
    pool.unmap(0).unwrap();
    assert_eq!(hole(&pool, 0), sized(0, 1 << 30));
    assert_eq!(hole(&Pool::new(4, 4), 5 << 39), sized(5 << 39, 1 << 39));
    assert_eq!(hole(&pool, 1 << 39), None);
}

#[test]
fn never_the_pool() {
    const GIB: u64 = 1 << 30;
    let mut pool = Pool::new(3, 4);
    for (frame, size) in [(P, 4096), (P + 3 * 4096, 4096), (P, MIB2), (P, GIB)] {
        assert_eq!(pool.map(0, frame, size, 3), Err(11));
    }
    // half open, at both ends
    for (address, frame, size) in [(0, P + 4 * 4096, 4096), (4096, P - 4096, 4096), (MIB2, P - MIB2, MIB2), (GIB, P - GIB, GIB)] {
        pool.map(address, frame, size, 3).unwrap();
    }
    // after 5, before the walk
    assert_eq!(pool.map(1, P, 4096, 3), Err(5));
    assert_eq!(pool.map(0, P, 4096, 3), Err(11));
    assert_eq!(pool.audit(), Ok(Counts { tables: 3, mappings: 4 }));
}

#[test]
fn the_attribute_words() {
    let word = |attributes: u64| frame_word(0, 4096, attributes) - 3;
    for a in 0..16 {
        let bits = |high: u64, low: u64| word(a) >> low & ((1 << (high - low + 1)) - 1);
        assert_eq!(bits(10, 10), 1);
        assert_eq!(bits(6, 6), a & 1);
        assert_eq!(bits(7, 7), a >> 1 & 1);
        assert_eq!(bits(54, 54), 1 - (a >> 2 & 1));
        assert_eq!((bits(5, 2), bits(9, 8)), if a & 8 == 0 { (0b1111, 0b11) } else { (0b0000, 0) });
        assert_eq!(word(a) & !(1 << 54 | 0x7FC), 0);
    }
}

#[test]
fn the_hosts_two_calls() {
    const MAX: u64 = u64::MAX;
    const GIB: u64 = 1 << 30;
    assert_eq!(frame_word(F, 4096, 3), 0x0040_0000_8000_07FF);
    assert_eq!(frame_word(0x8020_0000, MIB2, 3), 0x0040_0000_8020_07FD);
    assert_eq!(frame_word(LIMIT - GIB, GIB, 4), LIMIT - GIB + 0x73D);
    // one fault each, and each fault beside all later ones
    assert_eq!(
        [frame_word(F, 0, 3), frame_word(F, 8192, 3), frame_word(MAX, 1 << 39, 16), frame_word(F, 1 << 36, 3)],
        [2, 2, 2, 2]
    );
    assert_eq!([frame_word(F, 4096, 16), frame_word(MAX, 4096, 16), frame_word(F, GIB, MAX)], [3, 3, 3]);
    assert_eq!([frame_word(LIMIT, 4096, 15), frame_word(MAX, GIB, 0), frame_word(LIMIT - 1, 4096, 0)], [4, 4, 4]);
    assert_eq!([frame_word(1, 4096, 15), frame_word(0x1000, MIB2, 0), frame_word(MIB2, GIB, 0)], [5, 5, 5]);

    for size in [&SIZES[..], &SIZES_16].concat() {
        for attributes in 0..16 {
            for base in [0, size, LIMIT - size] {
                let word = frame_word(base, size, attributes);
                assert_eq!(word_meaning(word, size), base + 16 + attributes);
                for bit in (0..64).filter(|bit| !(size.trailing_zeros()..48).contains(bit)) {
                    let meaning = word_meaning(word ^ 1 << bit, size);
                    // the four attributes' own bits may give another frame, as long as normal memory stays normal
                    let named = [6, 7, 54].contains(&bit);
                    assert_eq!(meaning == 8, !named, "bit {bit} of {word:x}");
                }
                for other in [0, 1, 1 << 36, 1 << 39, MAX] {
                    assert_eq!(word_meaning(word, other), 2);
                }
            }
        }
    }
    assert_eq!([word_meaning(0, 4096), word_meaning(MAX, 4096), word_meaning(P + 3, 4096)], [8, 8, 8]);
}

#[test]
fn setup_numbers_and_lengths() {
    let refused = |setup: Setup, words: usize, places: usize| {
        let (mut words, mut list) = (vec![7; words], vec![7; places]);
        let answers = [
            map(setup, &mut words, &mut [], &list, 0, 0, 0, 99).1.err(),
            unmap(setup, &mut words, &mut [], &mut list, u64::MAX).1.err(),
            query(setup, &words, &[], &list, u64::MAX).err(),
            audit(setup, &words, &[], &list).err(),
            walk(setup, &words, &[], &list, u64::MAX, 0).err(),
        ];
        let all = answers.iter().all(|&answer| answer == Some(Refusal::Setup));
        assert_eq!(all, answers.contains(&Some(Refusal::Setup)));
        // format does not look at the free count
        let (zeros, answer) = format(setup.levels, setup.base, setup.tables, 0, 0, setup.granule, &mut words, &mut [], &mut list);
        if answer.is_err() {
            assert_eq!(zeros, Setup::default());
            assert!(words.iter().all(|&word| word == 7) && list.iter().all(|&number| number == 7));
        }
        (all, answer.is_err())
    };
    let good = Setup { levels: 3, base: P, tables: 4, free: 3, granule: 4096, ..Setup::default() };
    let (both, fine) = ((true, true), (false, false));
    assert_eq!(refused(good, 2048, 4), fine);
    for levels in [0, 1, 2, 5, 1 << 32, u64::MAX] {
        assert_eq!(refused(Setup { levels, ..good }, 2048, 4), both);
    }
    for base in [0, LIMIT - 4 * 4096, P + 4096] {
        assert_eq!(refused(Setup { base, ..good }, 2048, 4), fine);
    }
    for base in [1, P + 4095, LIMIT - 3 * 4096, LIMIT, u64::MAX - 4095, u64::MAX] {
        assert_eq!(refused(Setup { base, ..good }, 2048, 4), both);
    }
    for (words, places) in [(2047, 4), (2049, 4), (2048, 3), (2048, 5), (0, 0)] {
        assert_eq!(refused(good, words, places), both);
    }
    for tables in [0, 3, 5, 513, (1 << 32) + 1, 1 << 55, u64::MAX] {
        assert_eq!(refused(Setup { tables, ..good }, 2048, 4), both);
    }
    for free in [4, 5, 1 << 32, u64::MAX] {
        assert_eq!(refused(Setup { free, ..good }, 2048, 4), (true, false));
    }
    assert_eq!(refused(Setup { tables: 0, free: 0, ..good }, 0, 0), both);
    assert_eq!(refused(Setup { tables: 1, free: 0, ..good }, 512, 1), fine);
    assert_eq!(refused(Setup { tables: 512, free: 511, ..good }, 512 * 512, 512), fine);
    assert_eq!(refused(Setup { tables: 513, free: 63, ..good }, 512 * 513, 513), both);
}

#[test]
fn arguments_around_the_limits() {
    const GIB: u64 = 1 << 30;
    for levels in [3, 4] {
        let space = 1 << if levels == 3 { 39 } else { 48 };
        let map = |address, frame, size, attributes| Pool::new(levels, 4).map(address, frame, size, attributes);
        // each fault beside all later ones
        assert_eq!(map(u64::MAX, u64::MAX, 1 << 39, 16), Err(2));
        assert_eq!(map(u64::MAX, u64::MAX, 4096, 16), Err(3));
        assert_eq!(map(space, 1, 4096, 15), Err(4));
        for size in SIZES {
            let below = levels - 1 - if size == GIB { 2 } else { u64::from(size == MIB2) };
            assert_eq!(map(space - size, LIMIT - size, size, 0), Ok(below));
            for address in [space - size + 1, space, space + size, u64::MAX - size + 1, u64::MAX] {
                assert_eq!(map(address, 0, size, 0), Err(4));
            }
            for frame in [LIMIT - size + 1, LIMIT, u64::MAX - size + 1, u64::MAX] {
                assert_eq!(map(0, frame, size, 0), Err(4));
            }
            for odd in [1, size - 1, size / 2] {
                assert_eq!(map(odd, 0, size, 0), Err(5));
                assert_eq!(map(0, odd, size, 0), Err(5));
            }
        }
        let mut pool = Pool::new(levels, 4);
        for (address, number) in [(space - 4096, 9), (space - 1, 5), (space, 4), (space + 1, 4), (u64::MAX, 4), (1, 5)] {
            assert_eq!(pool.unmap(address), Err(number));
        }
        for (address, number) in [(space - 1, 9), (space, 4), (u64::MAX, 4), (1, 9)] {
            assert_eq!(pool.query(address), Err(number));
        }
    }
}
