//! The block fetch, its companion and the seal; nothing here knows of entries.

use crate::check;
use crate::numbers::{BLOCK, CHECK_A, CHECK_B, INDEX};
use crate::refusal::{Reason, Refusal};

/// The bytes of one block.
pub type Block = [u8; BLOCK];

/// Block k of the card, where its check and index hold, or the refusal (14, 2, 3).
pub fn sound(card: &[u8], k: usize) -> Result<&Block, Refusal> {
    let (blocks, _rest) = card.as_chunks::<BLOCK>();
    let block = blocks.get(k).ok_or(Reason::Absent.at(0))?;
    let sums = check::sums(&block[..CHECK_A]);
    if sums.a != block[CHECK_A] || sums.b != block[CHECK_B] {
        return Err(Reason::Check.at(k));
    }
    // The field has two bytes, so that no block above 65,535 can carry its own index.
    let index = u16::from_le_bytes([block[INDEX], block[INDEX + 1]]);
    if usize::from(index) != k {
        return Err(Reason::Index.at(k));
    }
    Ok(block)
}

/// Those 512 bytes of the lent card themselves, or nothing where the companion refuses.
pub fn fetch(card: &[u8], k: usize) -> Option<&Block> {
    sound(card, k).ok()
}

/// Says that the fetch of block k holds, or why it does not.
pub fn companion(card: &[u8], k: usize) -> Result<(), Refusal> {
    sound(card, k).map(|_| ())
}

/// Stores the block's index and check, whatever its other bytes are.
pub fn seal(block: &mut Block, k: u16) {
    block[INDEX..CHECK_A].copy_from_slice(&k.to_le_bytes());
    put_check(block);
}

/// Stores the two sums of the bytes before them.
pub fn put_check(block: &mut Block) {
    let sums = check::sums(&block[..CHECK_A]);
    block[CHECK_A] = sums.a;
    block[CHECK_B] = sums.b;
}

#[cfg(test)]
mod tests {
    use super::*;

    /// Two blocks with right indices; the sums are reckoned by hand.
    fn two_blocks() -> Vec<u8> {
        let mut card = vec![0; 2 * BLOCK];
        // The index 1 stands at byte 508: a is 1 from there on, so b is 2.
        card[BLOCK + 508] = 1;
        card[BLOCK + 510] = 1;
        card[BLOCK + 511] = 2;
        card
    }

    #[test]
    fn a_part_is_the_lent_bytes_themselves() {
        let card = two_blocks();
        let part = fetch(&card, 1).expect("block 1 is sound");
        assert_eq!(part.as_ptr(), card[BLOCK..].as_ptr());
        assert_eq!(companion(&card, 1), Ok(()));
        assert_eq!(companion(&card, 0), Ok(()));
    }

    #[test]
    fn a_block_that_is_not_all_there_is_absent() {
        let card = two_blocks();
        for k in [2, 3, 65_536, usize::MAX / BLOCK, usize::MAX] {
            assert_eq!(companion(&card, k), Err(Reason::Absent.at(0)));
            assert_eq!(fetch(&card, k), None);
        }
        assert_eq!(companion(&card[..1023], 1), Err(Reason::Absent.at(0)));
        assert_eq!(companion(&card[..511], 0), Err(Reason::Absent.at(0)));
        assert_eq!(companion(&[], 0), Err(Reason::Absent.at(0)));
    }

    #[test]
    fn the_check_comes_before_the_index() {
        let mut card = two_blocks();
        card[BLOCK + 508] = 2;
        assert_eq!(companion(&card, 1), Err(Reason::Check.at(1)));
        card[BLOCK + 510] = 2;
        assert_eq!(companion(&card, 1), Err(Reason::Check.at(1)));
        card[BLOCK + 511] = 4;
        assert_eq!(companion(&card, 1), Err(Reason::Index.at(1)));
    }

    #[test]
    fn a_stored_255_is_no_remainder() {
        let mut card = two_blocks();
        card[510] = 255;
        assert_eq!(companion(&card, 0), Err(Reason::Check.at(0)));
        card[510] = 0;
        card[511] = 255;
        assert_eq!(companion(&card, 0), Err(Reason::Check.at(0)));
    }

    #[test]
    fn a_sealed_block_holds() {
        let mut block = [0; BLOCK];
        seal(&mut block, 1);
        assert_eq!(block[..], two_blocks()[BLOCK..]);
        block[0] = 255;
        block[507] = 7;
        block[508..].fill(99);
        seal(&mut block, 0);
        // The 7 is in b at the bytes 507, 508 and 509.
        assert_eq!(block[508..], [0, 0, 7, 21]);
        assert_eq!(companion(&block, 0), Ok(()));
    }

    #[test]
    fn no_block_above_65535_carries_its_own_index() {
        let mut card = vec![0; 65_538 * BLOCK];
        assert_eq!(companion(&card, 65_536), Err(Reason::Index.at(65_536)));
        card[65_537 * BLOCK] = 1;
        assert_eq!(companion(&card, 65_537), Err(Reason::Check.at(65_537)));
        // The index 65,535 is two bytes of 255, which sum like zeros.
        card[65_535 * BLOCK + 508] = 255;
        card[65_535 * BLOCK + 509] = 255;
        assert_eq!(companion(&card, 65_535), Ok(()));
    }
}
