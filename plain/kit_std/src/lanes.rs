// Made by tools/plain-rust of tools/plain/kit_std/src/lanes.rs: change that.
//! Lanes of numbers as arrays, of which the compiler makes vectors where the target has some. With the
//! feature `sse2` tests, sums, differences and wider numbers are SSE2's own on x86-64: of the arrays
//! the compiler makes many more instructions.

#[cfg(not(all(feature = "sse2", target_arch = "x86_64")))]
use crate::portable::{differences, differing, less, sums, widened};
#[cfg(all(feature = "sse2", target_arch = "x86_64"))]
use crate::sse2::{differences, differing, less, sums, widened};
use std::array;
use std::ops::{Add, BitAnd, BitOr, Mul, Shl, Shr, Sub};

/// So many numbers, on which one operation works at a time. Sums, differences and products wrap.
#[derive(Clone, Copy)]
pub struct Simd<T, const N: usize>([T; N]);

#[allow(non_camel_case_types)]
pub type u8x4 = Simd<u8, 4>;
#[allow(non_camel_case_types)]
pub type u8x8 = Simd<u8, 8>;
#[allow(non_camel_case_types)]
pub type u8x16 = Simd<u8, 16>;
#[allow(non_camel_case_types)]
pub type u8x64 = Simd<u8, 64>;
#[allow(non_camel_case_types)]
pub type u16x4 = Simd<u16, 4>;
#[allow(non_camel_case_types)]
pub type u16x8 = Simd<u16, 8>;
#[allow(non_camel_case_types)]
pub type u32x4 = Simd<u32, 4>;
#[allow(non_camel_case_types)]
pub type u32x8 = Simd<u32, 8>;

/// What a test says of each lane.
#[derive(Clone, Copy)]
pub struct Mask(u64);

impl Mask {
    /// The answers as bits, that of lane 0 in the lowest.
    #[inline(always)]
    pub fn to_bitmask(self) -> u64 {
        self.0
    }
}

impl Simd<u8, 16> {
    /// Which lanes differ from those of another.
    #[inline(always)]
    pub fn simd_ne(self, other: Self) -> Mask {
        Mask(differing(&self.0, &other.0))
    }
}

impl Simd<u8, 64> {
    /// Which lanes differ from those of another, sixteen at a time.
    #[inline(always)]
    pub fn simd_ne(self, other: Self) -> Mask {
        let (one, other) = (self.0.chunks_exact(16), other.0.chunks_exact(16));
        Mask(one.zip(other).rev().fold(0, |bits, (one, other)| {
            match (one.try_into(), other.try_into()) {
                (Ok(one), Ok(other)) => bits << 16 | differing(one, other),
                _ => unreachable!(),
            }
        }))
    }
}

impl Simd<u16, 8> {
    /// Which lanes are not less than those of another.
    #[inline(always)]
    pub fn simd_ge(self, other: Self) -> Mask {
        Mask((0..8).fold(0, |bits, lane| {
            bits | u64::from(self.0[lane] >= other.0[lane]) << lane
        }))
    }
}

impl Simd<i32, 4> {
    /// Which lanes are less than those of another.
    #[inline(always)]
    pub fn simd_lt(self, other: Self) -> Mask {
        Mask(less(&self.0, &other.0))
    }
}

/// Numbers as ones of another type, as `as` makes them.
pub trait CastTo<U>: Sized {
    fn cast_all<const N: usize>(lanes: [Self; N]) -> [U; N];
}

impl CastTo<u32> for u8 {
    #[inline(always)]
    fn cast_all<const N: usize>(lanes: [u8; N]) -> [u32; N] {
        let mut wide = lanes.map(u32::from);
        for (bytes, wide) in lanes.chunks_exact(4).zip(wide.chunks_exact_mut(4)) {
            wide.copy_from_slice(&widened([bytes[0], bytes[1], bytes[2], bytes[3]]));
        }
        wide
    }
}

macro_rules! casts {
    ($($from:ty => $to:ty),*) => {
        $(impl CastTo<$to> for $from {
            #[inline(always)]
            fn cast_all<const N: usize>(lanes: [$from; N]) -> [$to; N] {
                lanes.map(|number| number as $to)
            }
        })*
    };
}

casts!(u32 => i32, u32 => u16);

impl<T: Copy, const N: usize> Simd<T, N> {
    /// The same number in each lane.
    #[inline(always)]
    pub fn splat(item: T) -> Self {
        Simd([item; N])
    }

    #[inline(always)]
    pub fn from_array(items: [T; N]) -> Self {
        Simd(items)
    }

    /// The first items of a slice, which has as many.
    #[inline(always)]
    pub fn from_slice(items: &[T]) -> Self {
        match items[..N].try_into() {
            Ok(lanes) => Simd(lanes),
            Err(_) => unreachable!(),
        }
    }

    #[inline(always)]
    pub fn to_array(self) -> [T; N] {
        self.0
    }

    /// Writes the lanes to the first items of a slice, which has as many.
    #[inline(always)]
    pub fn copy_to_slice(self, items: &mut [T]) {
        items[..N].copy_from_slice(&self.0);
    }

    /// Each number as one of another type.
    #[inline(always)]
    pub fn cast<U: Copy>(self) -> Simd<U, N>
    where
        T: CastTo<U>,
    {
        Simd(T::cast_all(self.0))
    }

    /// The lanes at these places.
    #[inline(always)]
    pub fn swizzle<const M: usize>(self, places: [usize; M]) -> Simd<T, M> {
        Simd(places.map(|place| self.0[place]))
    }

    /// The lanes at these places, where those of `other` come after these.
    #[inline(always)]
    pub fn shuffle(self, other: Self, places: [usize; N]) -> Self {
        Simd(array::from_fn(|lane| match places[lane] {
            at if at < N => self.0[at],
            at => other.0[at - N],
        }))
    }

    #[inline(always)]
    fn with(self, other: Self, operation: impl Fn(T, T) -> T) -> Self {
        Simd(array::from_fn(|lane| {
            operation(self.0[lane], other.0[lane])
        }))
    }
}

macro_rules! operators {
    ($($name:ident $method:ident $kind:ty: $operation:expr),*) => {
        $(impl<const N: usize> $name for Simd<$kind, N> {
            type Output = Self;

            #[inline(always)]
            fn $method(self, other: Self) -> Self {
                self.with(other, $operation)
            }
        })*
    };
}

operators!(
    BitAnd bitand u8: |a, b| a & b,
    BitOr bitor u8: |a, b| a | b,
    Shl shl u8: |a, b| a << b,
    Shr shr u8: |a, b| a >> b,
    Mul mul u16: |a, b| a.wrapping_mul(b),
    Add add u16: |a, b| a.wrapping_add(b)
);

/// Eight lanes, of which an operation makes four at a time.
#[inline(always)]
fn by_fours<F>(one: &[u32; 8], other: &[u32; 8], operation: F) -> [u32; 8]
where
    F: Fn(&[u32; 4], &[u32; 4]) -> [u32; 4],
{
    let mut lanes = [0; 8];
    for from in [0, 4] {
        let four = |lanes: &[u32; 8]| array::from_fn(|lane| lanes[from + lane]);
        lanes[from..from + 4].copy_from_slice(&operation(&four(one), &four(other)));
    }
    lanes
}

macro_rules! operators_of_four {
    ($($name:ident $method:ident: $operation:ident),*) => {
        $(
            impl $name for Simd<u32, 4> {
                type Output = Self;

                #[inline(always)]
                fn $method(self, other: Self) -> Self {
                    Simd($operation(&self.0, &other.0))
                }
            }

            impl $name for Simd<u32, 8> {
                type Output = Self;

                #[inline(always)]
                fn $method(self, other: Self) -> Self {
                    Simd(by_fours(&self.0, &other.0, $operation))
                }
            }
        )*
    };
}

operators_of_four!(Add add: sums, Sub sub: differences);
