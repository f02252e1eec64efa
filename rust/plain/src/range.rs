//! Maps and unmaps of a range: many mappings in one call, all or nothing.
//!
//! Both calls look at the whole range first, table by table and without writing, and then write. Neighbours in one table are looked at and
//! written together.

use crate::entry::{read_frame, write_frame};
use crate::geometry::{entries, is_multiple, page, place_of, region, sizes, space, LIMIT, MAX_LEVELS, MAX_TABLES};
use crate::{
    are_zero, descend, is_child, is_good, is_in_pool, read_entry, refuse_if, table_in, table_of, End, Entry, Refusal, Setup, Walk,
};

/// No range is longer.
const LONGEST: u64 = 1 << 32;

/// Unmap's answer for a range: the mappings removed and the tables given back.
#[derive(Clone, Copy, Debug, PartialEq, Eq)]
pub struct Cleared {
    pub removed: u64,
    pub given: u64,
}

/// Maps so many bytes of frames from a base on at an address, each piece as large as what is left and the two addresses allow. Answers the number of tables taken.
#[inline]
pub fn map_range(
    setup: Setup, words: &mut [u64], second: &mut [u64], list: &[u32], address: u64, frame: u64, length: u64, attributes: u64,
) -> (Setup, Result<u64, Refusal>) {
    let range = Range { address, frame, length };
    match of_granule!(setup.granule, map_or_refuse(&setup, words, second, list, range, attributes)) {
        Ok(taken) => (Setup { free: setup.free - taken, ..setup }, Ok(taken)),
        Err(refusal) => (setup, Err(refusal)),
    }
}

/// Removes every mapping in a range, and gives back each table that this leaves empty.
#[inline]
pub fn unmap_range(
    setup: Setup, words: &mut [u64], second: &mut [u64], list: &mut [u32], address: u64, length: u64,
) -> (Setup, Result<Cleared, Refusal>) {
    match of_granule!(setup.granule, unmap_or_refuse(&setup, words, second, list, address, length)) {
        Ok(cleared) => (Setup { free: setup.free + cleared.given, ..setup }, Ok(cleared)),
        Err(refusal) => (setup, Err(refusal)),
    }
}

fn is_length<const BITS: u64>(length: u64) -> bool {
    length != 0 && length <= LONGEST && is_multiple(length, page::<BITS>())
}

fn map_or_refuse<const BITS: u64>(
    setup: &Setup, words: &mut [u64], second: &mut [u64], list: &[u32], range: Range, attributes: u64,
) -> Result<u64, Refusal> {
    let Range { address, frame, length } = range;
    refuse_if(!is_good::<BITS>(setup, words, second, list), Refusal::Setup)?;
    refuse_if(!is_length::<BITS>(length), Refusal::Size)?;
    refuse_if(attributes > 15, Refusal::Attributes)?;
    let space = space::<BITS>(setup.levels);
    refuse_if(address >= space || length > space - address || frame > LIMIT - length, Refusal::Range)?;
    refuse_if(!is_multiple(address | frame, page::<BITS>()), Refusal::Alignment)?;
    refuse_if(is_in_pool::<BITS>(setup, frame, length), Refusal::InPool)?;

    let mut ways = Ways { stands: [0; MAX_TABLES as usize], missing: [NONE; MAX_LEVELS as usize + 1], needed: 0, in_use: false };
    let mut rest = range;
    while let Some(stretch) = rest.next_stretch::<BITS>() {
        ways.look_at::<BITS>(setup, words, second, &stretch)?;
    }
    refuse_if(ways.in_use, Refusal::InUse)?;
    refuse_if(ways.needed > setup.free, Refusal::NoTables)?;
    let left = setup.free - ways.needed;
    for &number in &list[left as usize..setup.free as usize] {
        refuse_if(!is_child(setup, number.into()) || ways.stands[number as usize] != 0, Refusal::Damaged)?;
        ways.stands[number as usize] = TAKEN;
    }

    // nothing was written so far, and nothing is refused from here
    let mut free = setup.free as usize;
    let mut rest = range;
    while let Some(stretch) = rest.next_stretch::<BITS>() {
        let taken = write_stretch::<BITS>(setup, words, second, &list[..free], &stretch, attributes);
        free -= taken;
    }
    Ok(ways.needed)
}

/// So many bytes at an address, to be mapped to the frames from a base on.
#[derive(Clone, Copy)]
struct Range {
    address: u64,
    frame: u64,
    length: u64,
}

/// Pieces of one size, whose entries are neighbours in one table.
struct Stretch {
    address: u64,
    frame: u64,
    size: u64,
    /// The levels left in that table.
    target: u64,
    count: usize,
}

impl Range {
    /// Takes the first pieces off. The size is the largest that fits what is left and divides both addresses; the next size comes into question only at the end of a table.
    #[inline(always)]
    fn next_stretch<const BITS: u64>(&mut self) -> Option<Stretch> {
        let Range { address, frame, length } = *self;
        if length == 0 {
            return None;
        }
        let zeros = (address | frame).trailing_zeros();
        let fits = |size: u64| size.trailing_zeros() <= zeros && size <= length;
        let target = (1..=sizes::<BITS>().len() as u64).rev().find(|&left| fits(region::<BITS>(left))).unwrap_or(1);
        let size = region::<BITS>(target);
        let room = entries::<BITS>() as u64 - address / size % entries::<BITS>() as u64;
        let count = room.min(length / size);
        let bytes = count * size;
        *self = Range { address: address + bytes, frame: frame + bytes, length: length - bytes };
        Some(Stretch { address, frame, size, target, count: count as usize })
    }
}

/// What a table stands for that is to be taken: no region.
const TAKEN: u32 = u32::MAX;

/// No region's number.
const NONE: u64 = u64::MAX;

/// What the walks of a range have come to so far.
struct Ways {
    /// For each table 0, or the region that it stands for: its base by 2 MiB, and the levels left in the table.
    stands: [u32; MAX_TABLES as usize],
    /// By the levels left, the last region that lacks a table. As addresses rise no region comes again after another.
    missing: [u64; MAX_LEVELS as usize + 1],
    /// How many regions lack a table.
    needed: u64,
    in_use: bool,
}

impl Ways {
    /// Makes the walks of a stretch, which all come to the same tables.
    #[inline(always)]
    fn look_at<const BITS: u64>(
        &mut self, setup: &Setup, words: &[u64], second: &[u64], stretch: &Stretch,
    ) -> Result<(), Refusal> {
        let &Stretch { address, target, count, .. } = stretch;
        let walk = descend::<BITS>(setup, words, second, address, target);
        self.come_along::<BITS>(setup, &walk, address)?;
        if walk.left == target && !matches!(walk.end, End::Again) {
            let table = table_of::<BITS>(words, second, walk.tables()[walk.depth - 1]);
            let from = walk.place % entries::<BITS>();
            return self.look_into::<BITS>(setup, &table[from..from + count], target);
        }
        match walk.end {
            End::Empty => self.miss::<BITS>(address, target, walk.left),
            End::Frame(_) | End::Table => self.in_use = true,
            End::Damaged | End::Again => return Err(Refusal::Damaged),
        }
        Ok(())
    }

    /// Each table of a walk stands for the region that its entries divide, and for no other.
    #[inline(always)]
    fn come_along<const BITS: u64>(&mut self, setup: &Setup, walk: &Walk, address: u64) -> Result<(), Refusal> {
        for (&table, left) in walk.tables().iter().zip((1..=setup.levels).rev()) {
            let base = address & !(region::<BITS>(left + 1) - 1);
            let code = ((base >> 21) << 3 | left) as u32;
            let stands = &mut self.stands[table];
            refuse_if(*stands != 0 && *stands != code, Refusal::Damaged)?;
            *stands = code;
        }
        Ok(())
    }

    /// The target entries of a stretch.
    #[inline(always)]
    fn look_into<const BITS: u64>(&mut self, setup: &Setup, targets: &[u64], left: u64) -> Result<(), Refusal> {
        if are_zero(targets) {
            return Ok(());
        }
        self.in_use = true;
        let damaged = |&word: &u64| matches!(read_entry::<BITS>(setup, word, left), Entry::Damaged);
        refuse_if(targets.iter().any(damaged), Refusal::Damaged)
    }

    /// The regions around an address that lack a table, below the entry where a walk ended.
    #[inline(always)]
    fn miss<const BITS: u64>(&mut self, address: u64, target: u64, ended: u64) {
        for left in target..ended {
            let number = address / region::<BITS>(left + 1);
            self.needed += u64::from(self.missing[left as usize] != number);
            self.missing[left as usize] = number;
        }
    }
}

/// Takes the tables that a stretch lacks, top first from the end of the list, and writes its words. Answers how many it took.
#[inline(always)]
fn write_stretch<const BITS: u64>(
    setup: &Setup, words: &mut [u64], second: &mut [u64], list: &[u32], stretch: &Stretch, attributes: u64,
) -> usize {
    let &Stretch { address, frame, size, target, count } = stretch;
    let walk = descend::<BITS>(setup, words, second, address, target);
    let (mut table, mut place) = (walk.tables()[walk.depth - 1], walk.place);
    for (&number, left) in list.iter().rev().zip((target..walk.left).rev()) {
        table = number as usize;
        table_in::<BITS>(words, second, table).fill(0);
        *crate::place_in(words, second, place) = setup.address_of::<BITS>(table) + 3;
        place = place_of::<BITS>(table, address, left);
    }
    let from = place % entries::<BITS>();
    let mut word = write_frame(frame, size, attributes);
    for entry in &mut table_in::<BITS>(words, second, table)[from..from + count] {
        *entry = word;
        word += size;
    }
    (walk.left - target) as usize
}

fn unmap_or_refuse<const BITS: u64>(
    setup: &Setup, words: &mut [u64], second: &mut [u64], list: &mut [u32], address: u64, length: u64,
) -> Result<Cleared, Refusal> {
    refuse_if(!is_good::<BITS>(setup, words, second, list), Refusal::Setup)?;
    refuse_if(!is_length::<BITS>(length), Refusal::Size)?;
    let space = space::<BITS>(setup.levels);
    refuse_if(address >= space || length > space - address, Refusal::Range)?;
    refuse_if(!is_multiple(address, page::<BITS>()), Refusal::Alignment)?;

    let (from, to) = (address, address + length);
    let seen = [false; MAX_TABLES as usize];
    let mut look = Look { setup, words, second, from, to, seen, cut: false, removed: 0, given: 0 };
    look.look_into::<BITS>(0, setup.levels, 0)?;
    let Look { cut, removed, given, .. } = look;
    refuse_if(cut, Refusal::NotTheStart)?;
    refuse_if(setup.free + given > setup.total() - 1, Refusal::Damaged)?;

    // nothing was written so far, and nothing is refused from here
    if removed > 0 {
        let mut clear = Clear { setup, words, second, list, from, to, free: setup.free as usize };
        clear.clear_in::<BITS>(0, setup.levels, 0);
    }
    Ok(Cleared { removed, given })
}

/// The entries of a table that a range meets, where the table's first entry stands for the addresses from `first` on.
#[inline(always)]
fn met<const BITS: u64>(left: u64, first: u64, from: u64, to: u64) -> std::ops::Range<usize> {
    let size = region::<BITS>(left);
    let begin = (from.saturating_sub(first) / size) as usize;
    let end = ((to - first + size - 1) / size).min(entries::<BITS>() as u64) as usize;
    begin..end
}

/// The look at a range that is to be unmapped.
struct Look<'a> {
    setup: &'a Setup,
    words: &'a [u64],
    second: &'a [u64],
    from: u64,
    to: u64,
    seen: [bool; MAX_TABLES as usize],
    cut: bool,
    removed: u64,
    given: u64,
}

impl Look<'_> {
    /// Looks at what the range meets in a table. Answers whether the table will be given back: if it loses an entry, and has no other.
    fn look_into<const BITS: u64>(&mut self, table: usize, left: u64, first: u64) -> Result<bool, Refusal> {
        // each table is come to for one region
        refuse_if(self.seen[table], Refusal::Damaged)?;
        self.seen[table] = true;
        let met = met::<BITS>(left, first, self.from, self.to);
        let words = table_of::<BITS>(self.words, self.second, table);
        let (lost, stays) = if left == 1 {
            (self.look_at_pages::<BITS>(&words[met.clone()])?, false)
        } else {
            self.look_at_entries::<BITS>(&words[met.clone()], left, first + region::<BITS>(left) * met.start as u64)?
        };
        let given = table != 0 && lost && !stays && are_zero(&words[..met.start]) && are_zero(&words[met.end..]);
        self.given += u64::from(given);
        Ok(given)
    }

    /// Whether there is a page among these words. The loop has no branch, so it is done on several words at once.
    #[inline(always)]
    fn look_at_pages<const BITS: u64>(&mut self, words: &[u64]) -> Result<bool, Refusal> {
        let (mut in_use, mut pages) = (0, 0);
        for &word in words {
            in_use += u64::from(word != 0);
            pages += u64::from(read_frame(word, page::<BITS>()).is_some());
        }
        refuse_if(pages != in_use, Refusal::Damaged)?;
        self.removed += pages;
        Ok(pages > 0)
    }

    /// Whether one of these entries goes, and whether one stays. The first stands for the addresses from `base` on.
    fn look_at_entries<const BITS: u64>(&mut self, words: &[u64], left: u64, base: u64) -> Result<(bool, bool), Refusal> {
        let size = region::<BITS>(left);
        let (mut lost, mut stays) = (false, false);
        for (&word, base) in words.iter().zip((base..).step_by(size as usize)) {
            let goes = match read_entry::<BITS>(self.setup, word, left) {
                Entry::Empty => continue,
                Entry::Damaged => return Err(Refusal::Damaged),
                Entry::Table(child) => self.look_into::<BITS>(child, left - 1, base)?,
                Entry::Frame(_) => {
                    self.cut |= base < self.from || self.to - base < size;
                    self.removed += 1;
                    true
                }
            };
            lost |= goes;
            stays |= !goes;
        }
        Ok((lost, stays))
    }
}

/// The clearing of a range in which every mapping is removed.
struct Clear<'a> {
    setup: &'a Setup,
    words: &'a mut [u64],
    second: &'a mut [u64],
    list: &'a mut [u32],
    from: u64,
    to: u64,
    free: usize,
}

impl Clear<'_> {
    /// Clears what the range meets in a table, and gives the table back if this leaves it empty. Answers that.
    fn clear_in<const BITS: u64>(&mut self, table: usize, left: u64, first: u64) -> bool {
        let (size, met) = (region::<BITS>(left), met::<BITS>(left, first, self.from, self.to));
        let mut lost = false;
        if left == 1 {
            let pages = &mut table_in::<BITS>(self.words, self.second, table)[met];
            lost = !are_zero(pages);
            pages.fill(0);
        } else {
            for i in met {
                let word = table_of::<BITS>(self.words, self.second, table)[i];
                let goes = match read_entry::<BITS>(self.setup, word, left) {
                    Entry::Table(child) => self.clear_in::<BITS>(child, left - 1, first + size * i as u64),
                    entry => matches!(entry, Entry::Frame(_)),
                };
                if goes {
                    table_in::<BITS>(self.words, self.second, table)[i] = 0;
                    lost = true;
                }
            }
        }
        let given = table != 0 && lost && are_zero(table_of::<BITS>(self.words, self.second, table));
        if given {
            self.list[self.free] = table as u32;
            self.free += 1;
        }
        given
    }
}
