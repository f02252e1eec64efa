//! Damage done to a pool from outside, one word or one place at a time.

use plain::{Setup, LIMIT};

use crate::{Memory, Random, Shape, Step};

/// A kind of damage.
#[derive(Clone, Copy, Debug, PartialEq, Eq, PartialOrd, Ord)]
pub enum Damage {
    /// One bit of an entry changes.
    Flip,
    /// An entry becomes a random word.
    Garbage,
    /// An entry names a table that the pool does not have, or the root.
    TableOutside,
    /// An entry is nearly the word of a table.
    TableOff,
    /// An entry names a table on its own path.
    Cycle,
    /// An entry names a random table.
    Alias,
    /// An entry names the last free table.
    LinkFree,
    /// An entry becomes the word of a frame of another size.
    FrameLevel,
    /// An entry becomes nearly the word of a frame.
    FrameOff,
    /// An entry becomes the word of a frame that shares a byte with the pool.
    FrameInPool,
    /// An entry becomes zero.
    Clear,
    /// A free number is out of range.
    FreeOutside,
    /// A free number stands in the list twice.
    FreeTwice,
    /// The number of a table on some path stands in the free list.
    FreeReached,
    /// A free table is not zero.
    FreeDirty,
    /// A place of the list past the free ones changes, which is no damage.
    PastTheFree,
    /// Memory past the pool changes, which is no damage.
    PastThePool,
}

impl Damage {
    pub const ALL: [Damage; 17] = [
        Damage::Flip,
        Damage::Garbage,
        Damage::TableOutside,
        Damage::TableOff,
        Damage::Cycle,
        Damage::Alias,
        Damage::LinkFree,
        Damage::FrameLevel,
        Damage::FrameOff,
        Damage::FrameInPool,
        Damage::Clear,
        Damage::FreeOutside,
        Damage::FreeTwice,
        Damage::FreeReached,
        Damage::FreeDirty,
        Damage::PastTheFree,
        Damage::PastThePool,
    ];

    /// Whether the audit must not mind.
    pub fn is_harmless(self) -> bool {
        matches!(self, Damage::PastTheFree | Damage::PastThePool)
    }

    /// A step that does this damage to a pool, on the path of an address if it is an entry's.
    pub fn step(self, random: &Random, setup: Setup, memory: &Memory, address: u64) -> Option<Step> {
        let (tables, more, free) = (setup.tables as usize, setup.second_tables as usize, setup.free as usize);
        let total = setup.total();
        let shape = Shape::of(setup.granule);
        let entries = shape.entries() as usize;
        let (words, second) = (memory.words.get(..entries * tables)?, memory.second.get(..entries * more)?);
        let walk = plain::walk(setup, words, second, memory.list.get(..tables + more)?, address, shape.page()).ok()?;
        // an entry of the path and the levels left there
        let depth = random.below(walk.tables().len() as u64) as usize;
        let left = setup.levels - depth as u64;
        let entry = memory.place(setup, walk.tables()[depth], shape.index(address, left));
        let to_word = |at: usize, word: u64| Some(Step::Word { at, word, damage: Some(self) });
        let to_place = |at: usize, number: u64| Some(Step::Place { at, number: number as u32, damage: Some(self) });
        let table = |number: u64| link(setup, number);
        // a place of the list that counts, where there is one
        let place = if free == 0 { None } else { Some(random.below(free as u64) as usize) };
        match self {
            Damage::Flip => to_word(entry, memory.word(entry) ^ 1 << random.below(64)),
            Damage::Garbage => to_word(entry, random.number() >> random.below(64)),
            Damage::TableOutside => {
                // the root, past either region and before it, and far away
                let past = |number: u64| setup.base.wrapping_add(number.wrapping_mul(shape.page())).wrapping_add(3);
                let before = setup.second_base.wrapping_sub(shape.page() - 3);
                let near = [
                    table(0),
                    table(total),
                    table(total + 1),
                    past(setup.tables),
                    past(setup.tables + 1),
                    past(u64::MAX),
                    before,
                ];
                to_word(entry, random.pick(&[random.pick(&near), random.pick(&near), past(1 << 36), past(1 << 51)]))
            }
            Damage::TableOff => {
                let off = random.pick(&[1, 2, 4, 8, 1 << 10, 1 << 11, shape.page() / 2, 1 << 48, 1 << 54, 1 << 59, 1 << 63]);
                to_word(entry, table(random.below(total)) ^ off)
            }
            Damage::Cycle => to_word(entry, table(random.pick(walk.tables().get(1..=depth).filter(|t| !t.is_empty())?) as u64)),
            Damage::Alias => to_word(entry, table(1 + random.below(total))),
            Damage::LinkFree => to_word(entry, table(u64::from(memory.list[free.checked_sub(1)?]))),
            Damage::FrameLevel => to_word(entry, frame(random, random_size(random, random.pick(&[shape, shape, shape.other()])))),
            Damage::FrameOff => {
                let low = [1, 2, 4, 8, 1 << 8, 1 << 9, 1 << 10, 1 << 11, 1 << 12, 1 << 13, shape.page() / 2];
                let off =
                    random.pick(&[random.pick(&low), random.pick(&low), random.pick(&[1 << 48, 1 << 53, 1 << 55, 1 << 63])]);
                to_word(entry, frame(random, shape.size(left)) ^ off)
            }
            Damage::FrameInPool => {
                let size = shape.size(left);
                let byte = link(setup, random.below(total)) - 3;
                to_word(entry, plain::frame_word(byte & !(size - 1), size, random.below(16)))
            }
            Damage::Clear => to_word(entry, 0),
            Damage::FreeOutside => {
                let number = random.pick(&[0, total, total + 1, 1 << 31, u64::from(u32::MAX)]);
                to_place(place?, number)
            }
            Damage::FreeTwice => to_place(place?, u64::from(memory.list[random.below(free as u64) as usize])),
            Damage::FreeReached => to_place(place?, random.pick(walk.tables()) as u64),
            Damage::FreeDirty => {
                let number = memory.list[place?] as usize;
                let at = memory.place(setup, number.min(total as usize - 1), random.pick(&[0, 1, 511, entries - 1]));
                to_word(at, random.number() >> random.below(64))
            }
            Damage::PastTheFree => to_place(free + random.below((memory.list.len() - free) as u64) as usize, random.number()),
            Damage::PastThePool => {
                let (from, to) = random.pick(&[
                    (entries * tables, memory.words.len()),
                    (memory.words.len() + entries * more, memory.words.len() + memory.second.len()),
                ]);
                if from == to {
                    return None;
                }
                to_word(from + random.below((to - from) as u64) as usize, random.number())
            }
        }
    }
}

/// One of the frame sizes of a granule, small ones more often.
pub fn random_size(random: &Random, shape: Shape) -> u64 {
    match random.below(6) {
        0..=2 => shape.size(1),
        3..=4 => shape.size(2),
        _ => shape.size(3),
    }
}

/// The word that names a table, of either region.
pub fn link(setup: Setup, number: u64) -> u64 {
    let (base, number) = match number.checked_sub(setup.tables) {
        Some(number) if setup.second_tables > 0 => (setup.second_base, number),
        _ => (setup.base, number),
    };
    base.wrapping_add(number.wrapping_mul(Shape::of(setup.granule).page())).wrapping_add(3)
}

/// A base of a frame at the borders of a region of a pool, in it, or just beside it.
pub fn base_near(random: &Random, setup: Setup, size: u64) -> u64 {
    let regions = [(setup.base, setup.tables), (setup.second_base, setup.second_tables)];
    let (base, tables) = if setup.second_tables > 0 { random.pick(&regions) } else { regions[0] };
    let page = Shape::of(setup.granule).page();
    let end = base.wrapping_add(tables.wrapping_mul(page));
    let near = [base, base.wrapping_sub(size), base.wrapping_sub(page), end.wrapping_sub(page), end, end.wrapping_add(page)];
    random.pick(&near) & !(size - 1)
}

/// The word of a random frame. Some bases are so round that they fit every region, up to 512 GiB.
pub fn frame(random: &Random, size: u64) -> u64 {
    let round = if random.percent(20) { 1 << 39 } else { size };
    plain::frame_word(random.below(LIMIT) & !(round - 1), size, random.below(16))
}
