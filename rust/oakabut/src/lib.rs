//! A stage 2 page table for Arm (VMSAv8-64, granules of 4 KiB and 16 KiB), proved.
//!
//! This crate is a thin safe layer over `liboakabut.a`, which is written in Rattle and proved: for every input each call keeps
//! its contract, stays within the lent memory and ends. What is added here is only names and types.
//!
//! ```
//! use oakabut::{Hole, Mapping, Pool, Refusal, BLOCK_2M, EXECUTE, GRANULE_4K, PAGE, READ, WRITE};
//!
//! // four tables of 4 KiB at 0x40000000, three levels: a space of 2^39 bytes
//! let mut words = [0u64; 4 * 512];
//! let mut list = [0u32; 4];
//! let mut pool = Pool::format(3, 0x4000_0000, 4, GRANULE_4K, &mut words, &mut list)?;
//!
//! // the first page needs two tables below the root, its neighbours none
//! assert_eq!(pool.map(0, 0x8000_0000, PAGE, READ + WRITE)?, 2);
//! assert_eq!(pool.map(0x1000, 0x8000_1000, PAGE, READ + EXECUTE)?, 0);
//! assert_eq!(pool.map(0x20_0000, 0x8020_0000, BLOCK_2M, READ + WRITE)?, 0);
//!
//! let mapping = pool.query(0x20_1234)?;
//! assert_eq!(mapping, Mapping { base: 0x20_0000, frame: 0x8020_0000, size: BLOCK_2M, attributes: READ + WRITE });
//!
//! // a refusal has a number and changes nothing
//! let refusal = pool.map(0x4000_0000, 0x8000_0000, PAGE, READ).unwrap_err();
//! assert_eq!(refusal, Refusal::NO_TABLES);
//! assert_eq!(refusal.to_string(), "refusal 7, map: the new tables needed are more than the free ones");
//!
//! // where nothing is mapped, it tells how large the hole is
//! let hole = pool.query(0x40_1234).unwrap_err().hole();
//! assert_eq!(hole, Some(Hole { base: 0x40_0000, size: BLOCK_2M }));
//!
//! // memory that is found later gives the pool more tables, and the map that got 7 is accepted
//! let (mut spare, mut longer) = ([0u64; 2 * 512], [0u32; 4 + 2]);
//! pool.add(0x5000_0000, 2, &mut spare, &mut longer)?;
//! assert_eq!(pool.map(0x4000_0000, 0x8000_0000, PAGE, READ)?, 2);
//! assert_eq!(pool.unmap(0x4000_0000)?.given, 2);
//!
//! // the table of the two pages is given back with the second of them
//! assert_eq!(pool.unmap(0)?.given, 0);
//! assert_eq!(pool.unmap(0x1000)?.given, 1);
//! assert_eq!(pool.audit()?.mappings, 1);
//!
//! // what a guest can see, line by line
//! for mapping in pool.mappings()? {
//!     assert_eq!(mapping.to_string(), "0x00200000  2 MiB  -> 0x80200000  rw-  normal");
//! }
//!
//! // with the other granule tables have 2048 words, and frames 16 KiB or 32 MiB
//! use oakabut::{BLOCK_32M, GRANULE_16K, PAGE_16K};
//! let mut pool = Pool::owned(3, 0x4000_0000, 4, GRANULE_16K)?;
//! assert_eq!(pool.map(0, 0x8000_0000, PAGE_16K, READ)?, 2);
//! assert_eq!(pool.map(0x200_0000, 0x8200_0000, BLOCK_32M, READ)?, 0);
//! # Ok::<(), Refusal>(())
//! ```
//!
//! # What is the caller's
//!
//! The upkeep of the TLB and the caches, locking and the allocation of frames. The header `oakabut.h` says what the Arm manual asks for, call by call, with the
//! reasons; in short:
//!
//! - after [`Pool::map`] and [`Pool::add`] `dsb ishst`, before the guest counts on the mapping and before the next call;
//! - after [`Pool::unmap`] `dsb ishst`, `tlbi`, `dsb ish`, before the frame is used again and before the next [`Pool::map`]; where [`Removed::given`] is above 0 a
//!   `tlbi` for all levels, since walk caches may know the way to the tables that came back;
//! - where a walker does not see the caches, the words are cleaned to memory after each call;
//! - [`Pool::format`] and its kin are for a pool that no walker reads.

#![no_std]
#![deny(missing_docs)]

extern crate alloc;
#[cfg(feature = "std")]
extern crate std;

use core::fmt;

mod pool;
pub mod raw;
mod refusal;

pub use pool::{Mappings, Pool};
pub use refusal::Refusal;

/// The granule of 4 KiB: pages and tables of 4096 bytes, 512 entries in a table, three levels or four.
pub const GRANULE_4K: u64 = 1 << 12;
/// The granule of 16 KiB: pages and tables of 16384 bytes, 2048 entries in a table, three levels.
pub const GRANULE_16K: u64 = 1 << 14;

/// The size of a page of the 4 KiB granule.
pub const PAGE: u64 = 1 << 12;
/// The size of a block of 2 MiB, of the 4 KiB granule.
pub const BLOCK_2M: u64 = 1 << 21;
/// The size of a block of 1 GiB, of the 4 KiB granule.
pub const BLOCK_1G: u64 = 1 << 30;
/// The size of a page of the 16 KiB granule.
pub const PAGE_16K: u64 = 1 << 14;
/// The size of a block of 32 MiB, of the 16 KiB granule.
pub const BLOCK_32M: u64 = 1 << 25;

/// The guest may read.
pub const READ: u64 = 1;
/// The guest may write.
pub const WRITE: u64 = 2;
/// The guest may execute.
pub const EXECUTE: u64 = 4;
/// Device memory; normal memory without it.
pub const DEVICE: u64 = 8;

/// A pool has at most this many tables, those of both regions counted.
pub const MAX_TABLES: u64 = 512;

/// The setup numbers of a pool.
#[repr(C)]
#[derive(Clone, Copy, Debug, Default, PartialEq, Eq, Hash)]
pub struct Setup {
    /// 3 or 4 levels: a space of 2^39 or 2^48 bytes. With [`GRANULE_16K`] there are 3, and 2^47 bytes.
    pub levels: u64,
    /// The address of table 0; table t of the first region stands at base + granule × t.
    pub base: u64,
    /// The number of tables of the first region: at least 1, and with those of the second at most 512.
    pub tables: u64,
    /// How many tables are free: so many first places of the list count.
    pub free: u64,
    /// The address of the second region, or 0; its first table has the number `tables`.
    pub second_base: u64,
    /// The number of tables of the second region, or 0 where there is none.
    pub second_tables: u64,
    /// [`GRANULE_4K`] or [`GRANULE_16K`]: the bytes of a page and of a table.
    pub granule: u64,
}

/// A mapping, as [`Pool::query`] answers it and [`Pool::mappings`] lists it.
#[repr(C)]
#[derive(Clone, Copy, Debug, PartialEq, Eq, Hash)]
pub struct Mapping {
    /// The first address of the mapping.
    pub base: u64,
    /// The base of the frame that it maps to.
    pub frame: u64,
    /// Its size in bytes.
    pub size: u64,
    /// Its attributes.
    pub attributes: u64,
}

/// A hole, as refusal 9 of [`Pool::query`] and [`Pool::unmap`] carries it: the largest aligned region around the address that is empty.
///
/// Its size is that of an entry's region at some level: 4 KiB, 2 MiB, 1 GiB, and with four levels 512 GiB; with the larger granule 16 KiB,
/// 32 MiB or 64 GiB. No mapping touches it. The next larger region around the address, if it is smaller than the whole space, holds a mapping in a pool that the audit accepts.
#[repr(C)]
#[derive(Clone, Copy, Debug, PartialEq, Eq, Hash)]
pub struct Hole {
    /// Its first address, a multiple of its size.
    pub base: u64,
    /// Its size in bytes.
    pub size: u64,
}

/// What [`Pool::unmap`] removed.
///
/// The translation may still be in a TLB, and the way to tables that were given back in a walk cache. The host invalidates both before it uses the frame for
/// anything else, maps something at the address again, or calls [`Pool::map`], which may take such a table.
#[must_use = "until the TLB is invalidated for it the guest may still reach the frame, and no map may take the tables given back"]
#[derive(Clone, Copy, Debug, PartialEq, Eq, Hash)]
pub struct Removed {
    /// The base of the frame.
    pub frame: u64,
    /// The size of the frame in bytes.
    pub size: u64,
    /// The attributes of the frame.
    pub attributes: u64,
    /// The number of tables given back to the free list.
    pub given: u64,
}

/// What [`Pool::unmap_range`] removed.
#[derive(Clone, Copy, Debug, PartialEq, Eq, Hash)]
pub struct Cleared {
    /// The number of mappings.
    pub removed: u64,
    /// The number of tables given back to the free list.
    pub given: u64,
}

/// What [`Pool::audit`] counts.
#[repr(C)]
#[derive(Clone, Copy, Debug, PartialEq, Eq, Hash)]
pub struct Audit {
    /// The tables reached from the root, the root among them.
    pub tables: u64,
    /// The mappings.
    pub mappings: u64,
}

/// What [`Pool::list_from`] answers.
#[derive(Clone, Copy, Debug, PartialEq, Eq, Hash)]
pub struct Listed {
    /// How many mappings were written.
    pub written: usize,
    /// The base of the first that was left out; none where none is left.
    pub next: Option<u64>,
}

impl Mapping {
    /// The mapping that the two numbers of [`Pool::list_from`] stand for. Numbers that no list writes are [`SIZE`](Refusal::SIZE) or [`DAMAGED`](Refusal::DAMAGED).
    pub fn listed(place: u64, entry: u64) -> Result<Mapping, Refusal> {
        // the power of two is in the bits in which a base has none
        let size = 1u64.checked_shl((place & 4095) as u32).unwrap_or(0);
        let (frame, attributes) = word_meaning(entry, size)?;
        Ok(Mapping { base: place & !4095, frame, size, attributes })
    }
}

/// A line for a person: `0x00200000  2 MiB  -> 0x80200000  rw-  normal`.
impl fmt::Display for Mapping {
    fn fmt(&self, f: &mut fmt::Formatter<'_>) -> fmt::Result {
        let Mapping { base, frame, size, attributes } = *self;
        let (count, unit) = match size {
            0x4000_0000.. => (size >> 30, "GiB"),
            0x10_0000.. => (size >> 20, "MiB"),
            _ => (size >> 10, "KiB"),
        };
        let letter = |attribute: u64, letter: char| if attributes & attribute == 0 { '-' } else { letter };
        let [read, write, execute] = [letter(READ, 'r'), letter(WRITE, 'w'), letter(EXECUTE, 'x')];
        let kind = if attributes & DEVICE == 0 { "normal" } else { "device" };
        write!(f, "{base:#010x}  {count} {unit}  -> {frame:#010x}  {read}{write}{execute}  {kind}")
    }
}

/// The entry word of a frame, of any of the five sizes.
///
/// It is refused in the order [`SIZE`](Refusal::SIZE), [`ATTRIBUTES`](Refusal::ATTRIBUTES), [`RANGE`](Refusal::RANGE),
/// [`ALIGNMENT`](Refusal::ALIGNMENT).
///
/// ```
/// assert_eq!(oakabut::frame_word(0x8000_0000, oakabut::PAGE, 3), Ok(0x0040_0000_8000_07FF));
/// ```
pub fn frame_word(base: u64, size: u64, attributes: u64) -> Result<u64, Refusal> {
    // SAFETY: the call takes and gives numbers.
    let word = unsafe { raw::oak_frame_word(base, size, attributes) };
    Refusal::or(if word < 16 { word } else { 0 }, word)
}

/// The base and the attributes of the frame of this size, which is any of the five, that a word stands for.
///
/// A word that is no frame of this size is [`DAMAGED`](Refusal::DAMAGED), and another size [`SIZE`](Refusal::SIZE).
///
/// ```
/// assert_eq!(oakabut::word_meaning(0x0040_0000_8000_07FF, oakabut::PAGE), Ok((0x8000_0000, 3)));
/// ```
pub fn word_meaning(word: u64, size: u64) -> Result<(u64, u64), Refusal> {
    // SAFETY: the call takes and gives numbers.
    let meaning = unsafe { raw::oak_word_meaning(word, size) };
    // a meaning is base + 16 + attributes, with a base that is a multiple of 4096
    Refusal::or(if meaning < 16 { meaning } else { 0 }, (meaning & !4095, meaning & 15))
}
