//! Entry words of VMSAv8-64 stage 2 with granules of 4 KiB and 16 KiB, and the host's two calls about them.

use crate::geometry::{is_multiple, GRANULES, LIMIT, SIZES, SIZES_16};
use crate::Refusal;

/// What a frame word says: the base of the frame and its attributes, 0 to 15.
#[derive(Clone, Copy, Debug, PartialEq, Eq)]
pub struct Frame {
    pub base: u64,
    pub attributes: u64,
}

/// Bits that a frame has or has not: 6 for read, 7 for write, 54 for not execute.
const READ_AND_WRITE: u64 = 0b11 << 6;
const NOT_EXECUTE: u64 = 1 << 54;

/// Bits 10:8 and 5:2 of normal memory and of device memory.
const NORMAL: u64 = 1 << 10 | 0b11 << 8 | 0b1111 << 2;
const DEVICE: u64 = 1 << 10;

/// The type of a frame: 3 at the last level, where its size is a page's, and 1 above it.
#[inline]
fn kind(size: u64) -> u64 {
    if GRANULES.contains(&size) {
        3
    } else {
        1
    }
}

/// The word of a frame that passes the tests 2 to 5. The attributes are 1 read, 2 write, 4 execute and 8 device.
#[inline]
pub(crate) fn write_frame(base: u64, size: u64, attributes: u64) -> u64 {
    let memory = if attributes & 8 == 0 { NORMAL } else { DEVICE };
    base | kind(size) | memory | (attributes & 3) << 6 | (!attributes & 4) << 52
}

/// The frame of this size, which is one of the five, that a word stands for, if it is the word of one.
///
/// The bits of the base, read, write and execute may be anything; the others have to be one of two patterns. A base below 2^48
/// that is a multiple of its size ends at 2^48 at most.
#[inline(always)]
pub(crate) fn read_frame(word: u64, size: u64) -> Option<Frame> {
    let base_bits = LIMIT - size;
    let pattern = word & !(base_bits | READ_AND_WRITE | NOT_EXECUTE);
    let good = pattern == NORMAL | kind(size) || pattern == DEVICE | kind(size);
    let attributes = word >> 6 & 3 | !word >> 52 & 4 | !word >> 5 & 8;
    good.then_some(Frame { base: word & base_bits, attributes })
}

/// Whether frames of either granule have this size.
fn is_size(size: u64) -> bool {
    SIZES.contains(&size) || SIZES_16.contains(&size)
}

/// The host's first call: the entry word of a frame, or the number of a refusal. It takes the sizes of both granules.
pub fn frame_word(base: u64, size: u64, attributes: u64) -> u64 {
    if !is_size(size) {
        Refusal::Size.number()
    } else if attributes > 15 {
        Refusal::Attributes.number()
    } else if base > LIMIT - size {
        Refusal::Range.number()
    } else if !is_multiple(base, size) {
        Refusal::Alignment.number()
    } else {
        write_frame(base, size, attributes)
    }
}

/// The host's second call: base + 16 + attributes for the word of a frame of this size, or the number of a refusal.
pub fn word_meaning(word: u64, size: u64) -> u64 {
    if !is_size(size) {
        return Refusal::Size.number();
    }
    match read_frame(word, size) {
        Some(frame) => frame.base + 16 + frame.attributes,
        None => Refusal::Damaged.number(),
    }
}
