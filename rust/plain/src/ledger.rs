//! The plainest oracle: it keeps nothing but the list of live mappings.
//!
//! It has no words, no tables and no free list, and counts the tables that mappings need from their addresses alone. It
//! answers what a pool must answer on any history of calls from a fresh format, with good lengths and the setup handed on.

use crate::{Cleared, Counts, Found, Hole, Refusal, Removed};

/// A live mapping.
#[derive(Clone, Copy, Debug, PartialEq, Eq)]
pub struct Mapping {
    pub address: u64,
    pub frame: u64,
    pub size: u64,
    pub attributes: u64,
}

/// The live mappings of a pool, in the order in which they came.
#[derive(Clone, Debug)]
pub struct Ledger {
    levels: u64,
    base: u64,
    tables: u64,
    second_base: u64,
    second_tables: u64,
    granule: u64,
    mappings: Vec<Mapping>,
    /// The tables below the root that they need.
    needed: u64,
}

impl Ledger {
    /// The ledger of a freshly formatted pool.
    pub fn new(levels: u64, base: u64, tables: u64, second_base: u64, second_tables: u64, granule: u64) -> Ledger {
        Ledger { levels, base, tables, second_base, second_tables, granule, mappings: Vec::new(), needed: 0 }
    }

    /// The sizes of frames, the page first.
    fn sizes(&self) -> &'static [u64] {
        match self.granule {
            0x4000 => &[0x4000, 0x200_0000],
            _ => &[0x1000, 0x20_0000, 0x4000_0000],
        }
    }

    /// The sizes of the regions that the entries of a tree stand for, the root's first. All but the last have tables.
    fn regions(&self) -> &'static [u64] {
        match (self.granule, self.levels) {
            (0x4000, _) => &[1 << 36, 1 << 25, 1 << 14],
            (_, 3) => &[1 << 30, 1 << 21, 1 << 12],
            _ => &[1 << 39, 1 << 30, 1 << 21, 1 << 12],
        }
    }

    /// Addresses are below this.
    fn space(&self) -> u128 {
        match (self.granule, self.levels) {
            (0x4000, _) => 1 << 47,
            (_, 3) => 1 << 39,
            _ => 1 << 48,
        }
    }

    /// Whether a frame shares a byte with so many tables from an address on.
    fn meets(&self, frame: u64, size: u64, base: u64, tables: u64) -> bool {
        frame.max(base) < (frame + size).min(base + self.granule * tables)
    }

    pub fn mappings(&self) -> &[Mapping] {
        &self.mappings
    }

    /// The number of free tables: all but the root and the needed ones.
    pub fn free(&self) -> u64 {
        self.tables + self.second_tables - 1 - self.needed
    }

    /// A second region of so many tables, with so many words lent for it and a list of so many places. The mappings stay, and all new
    /// tables are free.
    pub fn add(&mut self, base: u64, tables: u64, words: u64, places: u64) -> Result<(), Refusal> {
        let (granule, total) = (self.granule, u128::from(self.tables) + u128::from(tables));
        let end = u128::from(base) + u128::from(granule) * u128::from(tables);
        let good = self.second_base == 0
            && self.second_tables == 0
            && tables != 0
            && total <= 512
            && base % granule == 0
            && end <= 1 << 48
            && (end <= self.base.into() || base >= self.base + granule * self.tables)
            && 8 * u128::from(words) == u128::from(granule) * u128::from(tables)
            && u128::from(places) == total;
        if !good {
            return Err(Refusal::Setup);
        }
        if self.mappings.iter().any(|m| self.meets(m.frame, m.size, base, tables)) {
            return Err(Refusal::InPool);
        }
        (self.second_base, self.second_tables) = (base, tables);
        Ok(())
    }

    /// Answers the number of tables taken.
    pub fn map(&mut self, address: u64, frame: u64, size: u64, attributes: u64) -> Result<u64, Refusal> {
        let end = |base: u64| u128::from(base) + u128::from(size);
        if !self.sizes().contains(&size) {
            return Err(Refusal::Size);
        }
        if attributes > 15 {
            return Err(Refusal::Attributes);
        }
        if end(address) > self.space() || end(frame) > 1 << 48 {
            return Err(Refusal::Range);
        }
        if address % size != 0 || frame % size != 0 {
            return Err(Refusal::Alignment);
        }
        if self.meets(frame, size, self.base, self.tables) || self.meets(frame, size, self.second_base, self.second_tables) {
            return Err(Refusal::InPool);
        }
        if self.overlaps(address, size) {
            return Err(Refusal::InUse);
        }
        let mapping = Mapping { address, frame, size, attributes };
        let taken = self.needed_alone(&mapping);
        if taken > self.free() {
            return Err(Refusal::NoTables);
        }
        self.mappings.push(mapping);
        self.needed += taken;
        Ok(taken)
    }

    /// Whether a live mapping shares a byte with so many from an address on.
    fn overlaps(&self, address: u64, size: u64) -> bool {
        self.mappings.iter().any(|m| m.address < address + size && address < m.address + m.size)
    }

    fn is_length(&self, length: u64) -> bool {
        length != 0 && length % self.granule == 0 && length <= 1 << 32
    }

    /// Answers the number of tables taken. The pieces come into the list in rising order.
    pub fn map_range(&mut self, address: u64, frame: u64, length: u64, attributes: u64) -> Result<u64, Refusal> {
        let end = |base: u64| u128::from(base) + u128::from(length);
        if !self.is_length(length) {
            return Err(Refusal::Size);
        }
        if attributes > 15 {
            return Err(Refusal::Attributes);
        }
        if end(address) > self.space() || end(frame) > 1 << 48 {
            return Err(Refusal::Range);
        }
        if address % self.granule != 0 || frame % self.granule != 0 {
            return Err(Refusal::Alignment);
        }
        if self.meets(frame, length, self.base, self.tables) || self.meets(frame, length, self.second_base, self.second_tables) {
            return Err(Refusal::InPool);
        }
        if self.overlaps(address, length) {
            return Err(Refusal::InUse);
        }
        let pieces = self.pieces(address, frame, length, attributes).ok_or(Refusal::NoTables)?;
        let all = self.needed(&[&self.mappings[..], &pieces].concat());
        if all > self.tables + self.second_tables - 1 {
            return Err(Refusal::NoTables);
        }
        let taken = all - self.needed;
        self.mappings.extend(pieces);
        self.needed = all;
        Ok(taken)
    }

    /// The pieces of a range, each the largest that fits what is left and divides both addresses; none if they need more tables than there are.
    fn pieces(&self, address: u64, frame: u64, length: u64, attributes: u64) -> Option<Vec<Mapping>> {
        let mut pieces = Vec::new();
        let (mut done, mut tables) = (0, 0);
        while done < length {
            let (address, frame) = (address + done, frame + done);
            let fits = |&&size: &&u64| size <= length - done && address % size == 0 && frame % size == 0;
            let size = *self.sizes().iter().rev().find(fits).expect("a page fits");
            // a region that begins with a piece is one that no piece before it needs
            tables += self.regions().iter().filter(|&&region| region > size && address % region == 0).count();
            pieces.push(Mapping { address, frame, size, attributes });
            done += size;
            if tables as u64 > self.tables + self.second_tables {
                return None;
            }
        }
        Some(pieces)
    }

    /// Answers how many mappings were removed, and how many tables came back.
    pub fn unmap_range(&mut self, address: u64, length: u64) -> Result<Cleared, Refusal> {
        if !self.is_length(length) {
            return Err(Refusal::Size);
        }
        if u128::from(address) + u128::from(length) > self.space() {
            return Err(Refusal::Range);
        }
        if address % self.granule != 0 {
            return Err(Refusal::Alignment);
        }
        let end = address + length;
        let (touched, kept): (Vec<Mapping>, Vec<Mapping>) =
            self.mappings.iter().partition(|m| m.address < end && address < m.address + m.size);
        if touched.iter().any(|m| m.address < address || end < m.address + m.size) {
            return Err(Refusal::NotTheStart);
        }
        let left = self.needed(&kept);
        let cleared = Cleared { removed: touched.len() as u64, given: self.needed - left };
        (self.mappings, self.needed) = (kept, left);
        Ok(cleared)
    }

    pub fn unmap(&mut self, address: u64) -> Result<Removed, Refusal> {
        if u128::from(address) >= self.space() {
            return Err(Refusal::Range);
        }
        if address % self.granule != 0 {
            return Err(Refusal::Alignment);
        }
        let at = self.holder(address).ok_or_else(|| Refusal::Empty(self.hole(address)))?;
        if self.mappings[at].address != address {
            return Err(Refusal::NotTheStart);
        }
        let mapping = self.mappings.remove(at);
        let given = self.needed_alone(&mapping);
        self.needed -= given;
        let Mapping { frame, size, attributes, .. } = mapping;
        Ok(Removed { frame, size, attributes, given })
    }

    pub fn query(&self, address: u64) -> Result<Found, Refusal> {
        if u128::from(address) >= self.space() {
            return Err(Refusal::Range);
        }
        let at = self.holder(address).ok_or_else(|| Refusal::Empty(self.hole(address)))?;
        let Mapping { address: base, frame, size, attributes } = self.mappings[at];
        Ok(Found { base, frame, size, attributes })
    }

    /// A pool with a history is always accepted.
    pub fn audit(&self) -> Counts {
        Counts { tables: 1 + self.needed, mappings: self.mappings.len() as u64 }
    }

    /// The mappings with base at or above a start, in rising order, as many as fit into two runs of these lengths; and the base of the first that does not.
    pub fn list(&self, start: u64, places: u64, entries: u64) -> Result<(Vec<Mapping>, Option<u64>), Refusal> {
        if places != entries {
            return Err(Refusal::Setup);
        }
        if u128::from(start) >= self.space() {
            return Err(Refusal::Range);
        }
        let mut listed: Vec<Mapping> = self.mappings.iter().copied().filter(|m| m.address >= start).collect();
        listed.sort_unstable_by_key(|m| m.address);
        let left = listed.split_off(listed.len().min(places as usize));
        Ok((listed, left.first().map(|m| m.address)))
    }

    /// The number of the mapping that holds an address.
    fn holder(&self, address: u64) -> Option<usize> {
        self.mappings.iter().position(|m| m.address <= address && address - m.address < m.size)
    }

    /// The largest region around an address that no mapping touches, of the sizes that the entries of a tree stand for. No mapping holds the address.
    pub fn hole(&self, address: u64) -> Hole {
        let around = |&size: &u64| Hole { base: address / size * size, size };
        let untouched =
            |hole: &Hole| self.mappings.iter().all(|m| m.address + m.size <= hole.base || hole.base + hole.size <= m.address);
        self.regions().iter().map(around).find(untouched).expect("its page is free")
    }

    /// The number of tables that a mapping needs, and no live one does: one for each region larger than it that holds it.
    fn needed_alone(&self, mapping: &Mapping) -> u64 {
        let alone = |&&size: &&u64| {
            let needs = |m: &Mapping| size > m.size && m.address / size == mapping.address / size;
            size > mapping.size && !self.mappings.iter().any(needs)
        };
        self.regions().iter().filter(alone).count() as u64
    }

    /// The number of tables below the root that mappings need together: one for each region larger than a mapping that holds it.
    fn needed(&self, mappings: &[Mapping]) -> u64 {
        let mut regions = Vec::new();
        for mapping in mappings {
            for &size in self.regions() {
                if size > mapping.size {
                    regions.push((size, mapping.address / size));
                }
            }
        }
        regions.sort_unstable();
        regions.dedup();
        regions.len() as u64
    }
}
