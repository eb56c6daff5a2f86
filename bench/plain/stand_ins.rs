//! What the plain copy lacks: the part of other crates that the code uses, and what Rattle has and std has not. It is short and for
//! measuring alone.

use std::mem::MaybeUninit;
use std::ops::Deref;

pub trait Model {}

pub mod simd {
    use std::arch::x86_64::{_mm_madd_epi16, _mm_maddubs_epi16, _mm_set1_epi16, _mm_shuffle_epi8};
    pub use std::simd::prelude::*;
    pub use std::simd::{Select, ToBytes};

    /// The processor's instructions, of vectors of 16 bytes.
    pub trait Bytes {
        fn shuffled(self, places: Self) -> Self;
        fn dot4(self, other: Self) -> u32x4;
    }

    impl Bytes for u8x16 {
        #[inline(always)]
        fn shuffled(self, places: u8x16) -> u8x16 {
            unsafe { _mm_shuffle_epi8(self.into(), places.into()).into() }
        }
        #[inline(always)]
        fn dot4(self, other: u8x16) -> u32x4 {
            unsafe { _mm_madd_epi16(_mm_maddubs_epi16(self.into(), other.into()), _mm_set1_epi16(1)).into() }
        }
    }
}

/// Of arrayvec.
#[derive(Clone, Copy)]
pub struct ArrayVec<T: Copy, const N: usize>([MaybeUninit<T>; N], usize);

impl<T: Copy, const N: usize> ArrayVec<T, N> {
    pub fn new() -> Self {
        ArrayVec([MaybeUninit::uninit(); N], 0)
    }
    pub fn push(&mut self, item: T) {
        self.0[self.1].write(item);
        self.1 += 1;
    }
}

impl<T: Copy, const N: usize> Deref for ArrayVec<T, N> {
    type Target = [T];
    fn deref(&self) -> &[T] {
        unsafe { self.0[..self.1].assume_init_ref() }
    }
}

/// Of memchr.
#[inline]
pub fn memchr(byte: u8, bytes: &[u8]) -> Option<usize> {
    use simd::*;
    let (blocks, rest) = bytes.as_chunks::<32>();
    for (i, block) in blocks.iter().enumerate() {
        let found = u8x32::from_array(*block).simd_eq(u8x32::splat(byte)).to_bitmask();
        if found != 0 {
            return Some(32 * i + found.trailing_zeros() as usize);
        }
    }
    rest.iter().position(|other| *other == byte).map(|at| 32 * blocks.len() + at)
}

pub fn memrchr(byte: u8, bytes: &[u8]) -> Option<usize> {
    bytes.iter().rposition(|other| *other == byte)
}

/// Of simdutf8.
pub mod compat {
    pub use std::str::from_utf8;
}

/// Of itoa.
pub struct Buffer(String);

impl Buffer {
    pub fn new() -> Buffer {
        Buffer(String::new())
    }
    pub fn format(&mut self, number: impl ToString) -> &str {
        self.0 = number.to_string();
        &self.0
    }
}
