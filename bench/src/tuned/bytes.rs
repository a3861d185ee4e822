//! Numbers in files, low byte first, at any address; the fields of an arc.

use std::mem::MaybeUninit;

/// # Safety
/// The two bytes are readable.
#[inline(always)]
pub unsafe fn get16(at: *const u8) -> usize {
    u16::from_le(at.cast::<u16>().read_unaligned()) as usize
}

/// # Safety
/// The four bytes are readable.
#[inline(always)]
pub unsafe fn get32(at: *const u8) -> u32 {
    u32::from_le(at.cast::<u32>().read_unaligned())
}

/// # Safety
/// The eight bytes are readable.
#[inline(always)]
pub unsafe fn get64(at: *const u8) -> u64 {
    u64::from_le(at.cast::<u64>().read_unaligned())
}

/// # Safety
/// The four bytes are writable.
#[inline(always)]
pub unsafe fn put32(at: *mut u8, n: u32) {
    at.cast::<u32>().write_unaligned(n.to_le());
}

/// # Safety
/// The eight bytes are writable.
#[inline(always)]
pub unsafe fn put64(at: *mut u8, n: u64) {
    at.cast::<u64>().write_unaligned(n.to_le());
}

#[inline(always)]
pub fn transition(arc: u64) -> usize {
    (arc & 0xFFFF) as usize
}

/// 0 from place to transition, 1 from transition to place.
#[inline(always)]
pub fn direction(arc: u64) -> usize {
    (arc >> 16 & 1) as usize
}

#[inline(always)]
pub fn place(arc: u64) -> usize {
    (arc >> 32 & 0xFFFF) as usize
}

#[inline(always)]
pub fn weight(arc: u64) -> u32 {
    (arc >> 48) as u32
}

/// A table on the stack whose entries hold nothing yet.
pub type Raw<T, const N: usize> = MaybeUninit<[T; N]>;

#[inline(always)]
pub fn raw<T, const N: usize>() -> Raw<T, N> {
    MaybeUninit::uninit()
}
