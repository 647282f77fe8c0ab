//! The two sums that guard a block.

use crate::numbers::MODULUS;

/// The two sums of some bytes, each below 255.
#[derive(Clone, Copy, Debug, PartialEq, Eq)]
pub struct Sums {
    /// The sum of the bytes.
    pub a: u8,
    /// The sum of the sums.
    pub b: u8,
}

/// The sums of the given bytes, taken byte by byte as the scope document words it.
pub fn sums(bytes: &[u8]) -> Sums {
    let mut a: u32 = 0;
    let mut b: u32 = 0;
    for &byte in bytes {
        a = (a + u32::from(byte)) % MODULUS;
        b = (b + a) % MODULUS;
    }
    // Both are remainders by 255, so that a byte holds each of them.
    Sums {
        a: a as u8,
        b: b as u8,
    }
}

#[cfg(test)]
mod tests {
    use super::*;
    use crate::numbers::CHECK_A;

    #[test]
    fn no_bytes_and_zeros_sum_to_zero() {
        assert_eq!(sums(&[]), Sums { a: 0, b: 0 });
        assert_eq!(sums(&[0; CHECK_A]), Sums { a: 0, b: 0 });
    }

    #[test]
    fn zeros_but_for_a_leading_one() {
        let mut bytes = [0; CHECK_A];
        bytes[0] = 1;
        assert_eq!(sums(&bytes), Sums { a: 1, b: 0 });
    }

    #[test]
    fn the_head_of_a_span_card_with_three_letters_and_eight_entries() {
        let mut bytes = [0; CHECK_A];
        bytes[..6].copy_from_slice(&[1, 2, 3, 0, 8, 0]);
        assert_eq!(sums(&bytes), Sums { a: 14, b: 215 });
    }

    #[test]
    fn a_byte_of_255_sums_like_zero() {
        assert_eq!(sums(&[255]), Sums { a: 0, b: 0 });
        assert_eq!(sums(&[1, 255, 2]), sums(&[1, 0, 2]));
        assert_eq!(sums(&[254, 254]), Sums { a: 253, b: 252 });
    }
}
