//! Limits, and how an address, the granule and the levels divide the space.
//!
//! In the functions `BITS` is the granule: a page and a table have 2^BITS bytes, and a table so many entries of 8 bytes. It is 12 or 14, and
//! each function is compiled for both, so that shifts and masks are constants.

/// The frame sizes of the 4 KiB granule: 4 KiB, 2 MiB and 1 GiB. They are the regions of entries at the last three levels.
pub const SIZES: [u64; 3] = [1 << 12, 1 << 21, 1 << 30];

/// The frame sizes of the 16 KiB granule: 16 KiB and 32 MiB, the regions of entries at the last two levels.
pub const SIZES_16: [u64; 2] = [1 << 14, 1 << 25];

/// The numbers of the two granules, which are the bytes of a page and of a table.
pub const GRANULES: [u64; 2] = [SIZES[0], SIZES_16[0]];

/// The frame sizes of the granule of this number. One that names none has none.
pub fn sizes_of(granule: u64) -> &'static [u64] {
    match granule {
        0x1000 => &SIZES,
        0x4000 => &SIZES_16,
        _ => &[],
    }
}

/// No frame and no table reaches past this address.
pub const LIMIT: u64 = 1 << 48;

/// A pool has at most this many tables.
pub const MAX_TABLES: u64 = 512;

pub(crate) const MIN_LEVELS: u64 = 3;
pub(crate) const MAX_LEVELS: u64 = 4;

/// The bytes of a page, and of a table.
#[inline(always)]
pub(crate) const fn page<const BITS: u64>() -> u64 {
    1 << BITS
}

/// So many bits of an address choose the entry of a table.
const fn index_bits<const BITS: u64>() -> u64 {
    BITS - 3
}

/// Entries of a table.
#[inline(always)]
pub(crate) const fn entries<const BITS: u64>() -> usize {
    1 << index_bits::<BITS>()
}

/// The most levels of a tree: four are of the smaller granule alone.
#[inline(always)]
pub(crate) const fn max_levels<const BITS: u64>() -> u64 {
    if BITS == 12 {
        MAX_LEVELS
    } else {
        MIN_LEVELS
    }
}

/// The frame sizes. The tables with so many levels left as there are sizes, or fewer, have frames.
#[inline(always)]
pub(crate) const fn sizes<const BITS: u64>() -> &'static [u64] {
    if BITS == 12 {
        &SIZES
    } else {
        &SIZES_16
    }
}

/// The size of the whole space.
#[inline]
pub(crate) fn space<const BITS: u64>(levels: u64) -> u64 {
    page::<BITS>() << (index_bits::<BITS>() * levels)
}

/// The size of the region that one entry stands for, in a table with so many levels left.
#[inline]
pub(crate) fn region<const BITS: u64>(left: u64) -> u64 {
    page::<BITS>() << (index_bits::<BITS>() * (left - 1))
}

/// The levels left in the tables that hold frames of a size, if the granule has it.
#[inline]
pub(crate) fn level_of<const BITS: u64>(size: u64) -> Option<u64> {
    sizes::<BITS>().iter().position(|&other| other == size).map(|place| place as u64 + 1)
}

/// The place among the words of the entry for an address, in a table with so many levels left.
#[inline]
pub(crate) fn place_of<const BITS: u64>(table: usize, address: u64, left: u64) -> usize {
    table * entries::<BITS>() + (address / region::<BITS>(left)) as usize % entries::<BITS>()
}

/// Whether a number is a multiple of a size, which is a power of two.
#[inline]
pub(crate) fn is_multiple(number: u64, size: u64) -> bool {
    number & (size - 1) == 0
}
