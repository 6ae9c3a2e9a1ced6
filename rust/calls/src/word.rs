//! 256-bit words, written in hexadecimal.

use std::fmt;

/// Four limbs from the low end.
#[derive(Debug, Clone, Copy, Default, PartialEq, Eq)]
pub struct Word(pub [u64; 4]);

impl Word {
    /// Reads one to 64 hexadecimal digits.
    pub fn from_hex(digits: &str) -> Option<Self> {
        if !(1..=64).contains(&digits.len()) {
            return None;
        }
        let mut limbs = [0u64; 4];
        for (at, digit) in digits.chars().rev().enumerate() {
            limbs[at / 16] |= u64::from(digit.to_digit(16)?) << (at % 16 * 4);
        }
        Some(Self(limbs))
    }
}

impl From<u32> for Word {
    fn from(value: u32) -> Self {
        Self([value.into(), 0, 0, 0])
    }
}

/// Lower-case hexadecimal without leading zeros.
impl fmt::Display for Word {
    fn fmt(&self, out: &mut fmt::Formatter<'_>) -> fmt::Result {
        let digits: String = self.0.iter().rev().map(|limb| format!("{limb:016x}")).collect();
        let digits = digits.trim_start_matches('0');
        out.write_str(if digits.is_empty() { "0" } else { digits })
    }
}

#[cfg(test)]
mod tests {
    use super::Word;

    #[test]
    fn hex_and_back() {
        for digits in ["0", "7", "10000000000000000", &"f".repeat(64)] {
            assert_eq!(Word::from_hex(digits).unwrap().to_string(), digits);
        }
        assert_eq!(Word::from_hex(&"1".repeat(65)), None);
        assert_eq!(Word::from_hex("g"), None);
    }
}
