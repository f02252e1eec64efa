//! What the granule says of a pool's tables and of its space.

use plain::{sizes_of, GRANULES};

/// A granule: the one of a number, or that of 4 KiB where the number names none.
#[derive(Clone, Copy, Debug, PartialEq, Eq)]
pub struct Shape {
    page: u64,
}

impl Shape {
    pub fn of(granule: u64) -> Shape {
        Shape { page: if GRANULES.contains(&granule) { granule } else { GRANULES[0] } }
    }

    /// The bytes of a page and of a table, which are the granule's number.
    pub fn page(self) -> u64 {
        self.page
    }

    /// The words of a table.
    pub fn entries(self) -> u64 {
        self.page / 8
    }

    /// The bytes that an entry stands for, in a table with so many levels left.
    pub fn region(self, left: u64) -> u64 {
        self.page << (u64::from(self.entries().trailing_zeros()) * (left - 1))
    }

    /// The bytes of the space of so many levels.
    pub fn space(self, levels: u64) -> u64 {
        self.region(levels + 1)
    }

    /// The entry of an address in a table with so many levels left.
    pub fn index(self, address: u64, left: u64) -> usize {
        (address / self.region(left) % self.entries()) as usize
    }

    /// The sizes of frames, the page's first.
    pub fn sizes(self) -> &'static [u64] {
        sizes_of(self.page)
    }

    /// The size of frames in a table with so many levels left, or where it has none the largest.
    pub fn size(self, left: u64) -> u64 {
        self.sizes()[(left as usize).min(self.sizes().len()) - 1]
    }

    /// The other granule.
    pub fn other(self) -> Shape {
        Shape { page: GRANULES[0] ^ GRANULES[1] ^ self.page }
    }
}
