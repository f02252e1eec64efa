//! The list of a pool's mappings.

use plain::*;

const P: u64 = 0x4000_0000;
const Q: u64 = 0x5000_0000;
const F: u64 = 0x8000_0000;
const PAGE: u64 = 4096;
const MIB2: u64 = 1 << 21;
const GIB: u64 = 1 << 30;

struct Pool {
    setup: Setup,
    words: Vec<u64>,
    second: Vec<u64>,
    list: Vec<u32>,
}

impl Pool {
    fn new(levels: u64, tables: u64, second_tables: u64, granule: u64) -> Pool {
        let room = |tables: u64| vec![7; (granule / 8 * tables) as usize];
        let (mut words, mut second, mut list) = (room(tables), room(second_tables), vec![7; (tables + second_tables) as usize]);
        let second_base = if second_tables == 0 { 0 } else { Q };
        let (setup, answer) = format(levels, P, tables, second_base, second_tables, granule, &mut words, &mut second, &mut list);
        answer.unwrap();
        Pool { setup, words, second, list }
    }

    fn map(&mut self, address: u64, frame: u64, size: u64, attributes: u64) {
        let Pool { setup, words, second, list } = self;
        let (after, answer) = map(*setup, words, second, list, address, frame, size, attributes);
        answer.unwrap();
        *setup = after;
    }

    /// A list into runs of so many places: the two numbers of each mapping and the answer's base, or the refusal. What is past them stays 7.
    fn list_into(&self, start: u64, places: usize, entries: usize) -> Result<(Vec<(u64, u64)>, Option<u64>), u64> {
        let (mut one, mut other) = (vec![7; places], vec![7; entries]);
        let answer = list(self.setup, &self.words, &self.second, &self.list, start, &mut one, &mut other);
        let written = answer.map_or(0, |listed| listed.written as usize);
        assert!(one[written..].iter().chain(&other[written..]).all(|&number| number == 7));
        let Listed { next, .. } = answer.map_err(Refusal::number)?;
        Ok((one.into_iter().zip(other).take(written).collect(), next))
    }

    fn list(&self, start: u64, room: usize) -> Result<(Vec<(u64, u64)>, Option<u64>), u64> {
        self.list_into(start, room, room)
    }

    /// Pages of these lengths in turn, from 0 on: what they wrote together.
    fn pages(&self, lengths: &[usize]) -> Vec<(u64, u64)> {
        let (mut all, mut start, mut lengths) = (Vec::new(), Some(0), lengths.iter().cycle());
        while let Some(from) = start {
            let (listed, next) = self.list(from, *lengths.next().unwrap()).unwrap();
            all.extend(listed);
            start = next;
        }
        all
    }
}

/// The pool of the document's case 4.
fn case_4() -> Pool {
    let mut pool = Pool::new(3, 4, 0, 4096);
    pool.map(0, F, PAGE, 3);
    pool.map(0x1000, 0x8000_1000, PAGE, 5);
    pool.map(0x20_0000, 0x8020_0000, MIB2, 3);
    pool
}

const THREE: [(u64, u64); 3] = [(12, 0x40_0000_8000_07FF), (0x1000 + 12, 0x8000_177F), (0x20_0000 + 21, 0x40_0000_8020_07FD)];

#[test]
fn from_a_start_on() {
    let pool = case_4();
    assert_eq!(pool.list(0, 4), Ok((THREE.to_vec(), None)));
    assert_eq!(pool.list(0, 3), Ok((THREE.to_vec(), None)));
    assert_eq!(pool.list(0, 2), Ok((THREE[..2].to_vec(), Some(0x20_0000))));
    assert_eq!(pool.list(0, 0), Ok((vec![], Some(0))));
    for (start, left) in [(1, 1), (0xFFF, 1), (0x1000, 1), (0x1001, 2), (0x20_0000, 2), (0x20_0001, 3), (0x3F_FFFF, 3), (GIB, 3)]
    {
        assert_eq!(pool.list(start, 4), Ok((THREE[left..].to_vec(), None)), "from {start:x}");
    }
    assert_eq!(pool.list((1 << 39) - 1, 0), Ok((vec![], None)));
    assert_eq!(Pool::new(4, 1, 0, 4096).list(0, 5), Ok((vec![], None)));
}

#[test]
fn pages_list_each_mapping_once() {
    let mut pool = Pool::new(4, 16, 4, 4096);
    let mut all = Vec::new();
    for (address, size) in [
        (0, GIB),
        (GIB, MIB2),
        (GIB + MIB2, PAGE),
        (GIB + 2 * MIB2 - PAGE, PAGE),
        (2 * GIB - PAGE, PAGE),
        (1 << 39, GIB),
        ((1 << 48) - PAGE, PAGE),
    ] {
        all.push((address + u64::from(size.trailing_zeros()), frame_word(F, size, all.len() as u64)));
    }
    for (i, &(place, _)) in all.iter().enumerate().rev() {
        pool.map(place & !4095, F, 1 << (place % 4096), i as u64);
    }
    for lengths in [&[1][..], &[2], &[3], &[7], &[100], &[1, 3], &[2, 1, 1]] {
        assert_eq!(pool.pages(lengths), all, "{lengths:?}");
    }
}

#[test]
fn the_powers_of_the_larger_granule() {
    let mut pool = Pool::new(3, 4, 2, 16384);
    pool.map(1 << 36, F, 1 << 14, 3);
    pool.map(3 << 25, F, 1 << 25, 11);
    let all = vec![((3 << 25) + 25, frame_word(F, 1 << 25, 11)), ((1 << 36) + 14, frame_word(F, 1 << 14, 3))];
    assert_eq!(pool.list(0, 9), Ok((all, None)));
    assert_eq!(pool.list((3 << 25) + 1, 0), Ok((vec![], Some(1 << 36))));
    assert_eq!(pool.list(1 << 47, 9), Err(4));
}

#[test]
fn refusals_in_their_order() {
    let mut pool = case_4();
    assert_eq!(pool.list_into(1 << 39, 1, 2), Err(1));
    assert_eq!(pool.list_into(0, 1, 0), Err(1));
    assert_eq!(pool.list(1 << 39, 1), Err(4));
    assert_eq!(pool.list(u64::MAX, 1), Err(4));
    // damage anywhere in reachable tables, also below the start and past what fits
    for at in [3, 511, 512 + 9, 1024, 1024 + 511] {
        let was = std::mem::replace(&mut pool.words[at], 5);
        for start in [0, 0x20_0000, (1 << 39) - 1] {
            assert_eq!(pool.list(start, 1), Err(8));
            assert_eq!(pool.list(start, 0), Err(8));
        }
        assert_eq!(pool.list_into(0, 2, 3), Err(1));
        assert_eq!(pool.list(1 << 39, 1), Err(4));
        pool.words[at] = was;
    }
    // a table reached twice
    pool.words[1] = P + 4096 + 3;
    assert_eq!(pool.list(0, 9), Err(8));
    pool.words[1] = 0;
    pool.setup.free = 4;
    assert_eq!(pool.list(0, 9), Err(1));
}

#[test]
fn what_a_list_does_not_mind() {
    let mut pool = case_4();
    // a table that is not reached, the free list, an empty table, and a frame in the pool
    pool.words[3 * 512] = 5;
    pool.list[0] = 77;
    assert_eq!(pool.list(0, 4), Ok((THREE.to_vec(), None)));
    pool.words[3 * 512] = 0;
    pool.words[512 + 2] = P + 3 * 4096 + 3;
    assert_eq!(pool.list(0, 4), Ok((THREE.to_vec(), None)));
    let own = frame_word(P, GIB, 3);
    pool.words[1] = own;
    assert_eq!(pool.list(0x20_0001, 4), Ok((vec![(GIB + 30, own)], None)));
}
