//! The letters of words, builds, lists and records.

/// The letters by their codes, from 0 on.
const LETTERS: [u8; 4] = *b"ACGT";
/// What stands for the code of a byte that is no letter.
const NO_LETTER: u8 = 255;
/// The codes of all bytes.
const CODES: [u8; 256] = {
    let mut codes = [NO_LETTER; 256];
    let mut code = 0;
    while code < LETTERS.len() {
        codes[LETTERS[code] as usize] = code as u8;
        code += 1;
    }
    codes
};

/// The letter with the code that a word's last two bits hold.
fn last_letter(word: u32) -> u8 {
    LETTERS[(word % 4) as usize]
}

/// The code of a letter, or nothing for any other byte.
pub fn code(letter: u8) -> Option<u32> {
    let code = CODES[usize::from(letter)];
    (code != NO_LETTER).then_some(u32::from(code))
}

/// The codes of these letters, or nothing where a byte among them is no letter.
pub fn codes(letters: &[u8]) -> Option<Vec<u32>> {
    letters.iter().map(|&letter| code(letter)).collect()
}

/// Says whether a byte is a letter.
pub fn is_letter(byte: u8) -> bool {
    matches!(byte, b'A' | b'C' | b'G' | b'T')
}

/// Says whether these bytes are letters alone.
///
/// Every byte is looked at, with no way out before the last: this lets the
/// compiler look at many of them at once.
pub fn are_letters(bytes: &[u8]) -> bool {
    bytes.iter().fold(true, |are, &byte| are & is_letter(byte))
}

/// The letters of a word of l letters, the first one first.
pub fn letters_of(l: u8, word: u32) -> impl Iterator<Item = u8> {
    (0..l).rev().map(move |k| last_letter(word >> (2 * k)))
}

/// The sequence that words of l letters spell, each overlapping the one before it by l−1 letters.
pub fn spell(l: u8, words: &[u32]) -> Vec<u8> {
    let Some((first, later)) = words.split_first() else {
        return Vec::new();
    };
    let of_later = later.iter().map(|&word| last_letter(word));
    letters_of(l, *first).chain(of_later).collect()
}

#[cfg(test)]
mod tests {
    use super::*;

    #[test]
    fn the_codes_of_the_letters() {
        assert_eq!(codes(b"ACGT"), Some(vec![0, 1, 2, 3]));
        for byte in (0..=255).filter(|byte| !b"ACGT".contains(byte)) {
            assert_eq!(codes(&[b'A', byte]), None);
        }
    }

    #[test]
    fn the_bytes_that_are_letters() {
        for byte in 0..=255 {
            let is_one = [65, 67, 71, 84].contains(&byte);
            assert_eq!(is_letter(byte), is_one);
            assert_eq!(are_letters(&[b'A', byte, b'T']), is_one);
        }
        assert!(are_letters(b"") && are_letters(b"GATTACA"));
    }

    #[test]
    fn words_that_overlap_spell_a_sequence() {
        // AC 1, CA 4, AG 2, GA 8; the first letter is the most significant.
        assert_eq!(spell(2, &[1, 4, 2, 8]), b"ACAGA");
        assert_eq!(spell(2, &[1]), b"AC");
        assert_eq!(spell(3, &[0b00_01_11]), b"ACT");
        assert_eq!(spell(3, &[0b00_01_11, 0b01_11_10]), b"ACTG");
        assert_eq!(spell(12, &[0xFF_FFFF]), [b'T'; 12]);
        assert_eq!(spell(2, &[]), b"");
    }
}
