//! What vm2's files use of `primitive_types`, written anew: the crate itself is not at hand.

use std::ops::Add;

/// 256-bit number, four limbs from the low end (`fat_pointer.rs` casts to this very layout).
///
/// The derived `Debug` shows the limbs, from which the view of a memory reads journalled words.
#[derive(Debug, Clone, Copy, Default, PartialEq, Eq, Hash)]
pub struct U256(pub [u64; 4]);

impl U256 {
    pub const fn zero() -> Self {
        Self([0; 4])
    }

    /// The number whose big-endian bytes these are; at most 32.
    #[inline]
    pub fn from_big_endian(bytes: &[u8]) -> Self {
        let mut full = [0u8; 32];
        full[32 - bytes.len()..].copy_from_slice(bytes);
        let mut limbs = [0u64; 4];
        for (limb, part) in limbs.iter_mut().rev().zip(full.chunks_exact(8)) {
            *limb = u64::from_be_bytes(part.try_into().expect("parts of eight bytes"));
        }
        Self(limbs)
    }

    /// Writes the 32 big-endian bytes.
    #[inline]
    pub fn to_big_endian(&self, bytes: &mut [u8]) {
        for (part, limb) in bytes.chunks_exact_mut(8).zip(self.0.iter().rev()) {
            part.copy_from_slice(&limb.to_be_bytes());
        }
    }

    pub const fn low_u32(&self) -> u32 {
        self.0[0] as u32
    }

    pub const fn low_u128(&self) -> u128 {
        (self.0[1] as u128) << 64 | self.0[0] as u128
    }

    /// The number itself; panics when it has more than 32 bits (refusal 15 rests on this panic).
    pub fn as_u32(&self) -> u32 {
        let fits = self.0[0] <= u64::from(u32::MAX) && self.0[1..] == [0; 3];
        assert!(fits, "Integer overflow when casting to u32");
        self.low_u32()
    }
}

impl From<u128> for U256 {
    fn from(value: u128) -> Self {
        Self([value as u64, (value >> 64) as u64, 0, 0])
    }
}

/// For the literal in `word + 32`, which has the type `i32`.
impl From<i32> for U256 {
    fn from(value: i32) -> Self {
        let value = u64::try_from(value).expect("a number of no sign");
        Self([value, 0, 0, 0])
    }
}

impl<T: Into<U256>> Add<T> for U256 {
    type Output = U256;

    fn add(self, other: T) -> U256 {
        let other = other.into();
        let mut sum = [0u64; 4];
        let mut carry = false;
        for (at, limb) in sum.iter_mut().enumerate() {
            let (partial, first) = self.0[at].overflowing_add(other.0[at]);
            let (whole, second) = partial.overflowing_add(u64::from(carry));
            *limb = whole;
            carry = first || second;
        }
        assert!(!carry, "sum over 256 bits");
        U256(sum)
    }
}

/// 160-bit account address. Nothing here looks into one.
#[derive(Debug, Clone, Copy, Default, PartialEq, Eq, Hash)]
pub struct H160(pub [u8; 20]);

#[cfg(test)]
mod tests {
    use super::U256;

    #[test]
    fn bytes_and_back() {
        let word = U256([1, 2, 3, 4]);
        let mut bytes = [0u8; 32];
        word.to_big_endian(&mut bytes);
        assert_eq!((bytes[7], bytes[31]), (4, 1));
        assert_eq!(U256::from_big_endian(&bytes), word);
    }

    #[test]
    fn sums_carry_over_limbs() {
        assert_eq!(U256([u64::MAX, u64::MAX, 0, 0]) + 1, U256([0, 0, 1, 0]));
        assert_eq!(U256::zero() + ((7u128 << 64) | 5), U256([5, 7, 0, 0]));
    }
}
