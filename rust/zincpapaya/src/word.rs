//! 256-bit words.

use std::fmt;

/// A 256-bit word: four limbs of 64 bits, the lowest first.
///
/// `Word(number.0)` and `U256(word.0)` convert from and to the `U256` of `primitive-types`.
///
/// ```
/// use zincpapaya::Word;
///
/// let word = Word([1, 0, 0, 0]);
/// assert_eq!(word, Word::from(1));
/// assert_eq!(word.to_big_endian()[31], 1);
/// assert_eq!(format!("{word:#x}"), "0x1");
/// ```
#[derive(Clone, Copy, Default, PartialEq, Eq, Hash)]
#[repr(C)]
pub struct Word(
    /// The limbs, the lowest first.
    pub [u64; 4],
);

impl Word {
    /// The word 0.
    pub const ZERO: Self = Self([0; 4]);

    /// The word of 32 bytes, the highest first, as it stands in memory.
    pub fn from_big_endian(bytes: &[u8; 32]) -> Self {
        let mut limbs = [0; 4];
        for (limb, part) in limbs.iter_mut().rev().zip(bytes.chunks_exact(8)) {
            *limb = part.iter().fold(0, |limb, byte| limb << 8 | u64::from(*byte));
        }
        Self(limbs)
    }

    /// The word's 32 bytes, the highest first, as it stands in memory.
    pub fn to_big_endian(self) -> [u8; 32] {
        let mut bytes = [0; 32];
        for (part, limb) in bytes.chunks_exact_mut(8).zip(self.0.iter().rev()) {
            part.copy_from_slice(&limb.to_be_bytes());
        }
        bytes
    }
}

/// A word that up to 32 bytes of a range lead, and how many they are.
///
/// The first `bytes_read` bytes of the word, as [`Word::to_big_endian`] has them, came from the range that was
/// read; the rest is padding of zeros. The number is the range's: a byte of it that nobody wrote is 0 and
/// counts, even where its page is not allocated or its id decodes to no page.
///
/// ```
/// use zincpapaya::{PartialWord, Word};
///
/// // A range of three bytes: 7, 0 and 0.
/// let read = PartialWord { word: Word([0, 0, 0, 7 << 56]), bytes_read: 3 };
/// let bytes = read.word.to_big_endian();
/// let (real, padding) = bytes.split_at(read.bytes_read);
/// assert_eq!((real, padding), (&[7, 0, 0][..], &[0; 29][..]));
/// ```
#[derive(Debug, Clone, Copy, Default, PartialEq, Eq, Hash)]
#[must_use = "only the first `bytes_read` bytes of the word came from the range"]
pub struct PartialWord {
    /// The bytes of the range, then zeros.
    pub word: Word,
    /// How many bytes the range has, 0 to 32.
    pub bytes_read: usize,
}

impl From<[u64; 4]> for Word {
    fn from(limbs: [u64; 4]) -> Self {
        Self(limbs)
    }
}

impl From<Word> for [u64; 4] {
    fn from(word: Word) -> Self {
        word.0
    }
}

impl From<u64> for Word {
    fn from(number: u64) -> Self {
        Self([number, 0, 0, 0])
    }
}

/// Lower-case hexadecimal without leading zeros.
impl fmt::LowerHex for Word {
    fn fmt(&self, out: &mut fmt::Formatter<'_>) -> fmt::Result {
        let digits: String = self.0.iter().rev().map(|limb| format!("{limb:016x}")).collect();
        let digits = digits.trim_start_matches('0');
        out.pad_integral(true, "0x", if digits.is_empty() { "0" } else { digits })
    }
}

impl fmt::Debug for Word {
    fn fmt(&self, out: &mut fmt::Formatter<'_>) -> fmt::Result {
        write!(out, "Word({self:#x})")
    }
}
