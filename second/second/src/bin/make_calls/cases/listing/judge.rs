//! What a list must give, by cutting it into lines, fields and numbers, which `probe_list` does not do.

use second::lists::Lists;
use second::numbers::{NO_PLACE, PAIR, SPAN};

use super::{number_and_place, Refused};

/// What one line says: its word, its numbers, and its mark, if it has one.
struct Fields<'a> {
    word: &'a str,
    numbers: Vec<u32>,
    mark: Option<char>,
}

/// The card of a list, or the refusal that it must get where there is room.
pub fn judged(list: &[u8]) -> Result<Vec<u8>, Refused> {
    // Bytes above 127 are on no line that is sound, and each becomes one letter that is not either.
    let text: String = list.iter().map(|&byte| char::from(byte)).collect();
    if text.is_empty() {
        return Err((23, 1));
    }
    let mut all: Vec<Fields> = Vec::new();
    for (number, line) in (1..).zip(text.split_inclusive('\n')) {
        let fields = fields(line).ok_or((23, number))?;
        let mut marks = all.iter().filter_map(|earlier| earlier.mark);
        let is_mixed = marks.any(|earlier| fields.mark.is_some_and(|mark| mark != earlier));
        let first = all.first().unwrap_or(&fields);
        if is_mixed {
            return Err((24, number));
        }
        if fields.word.len() != first.word.len() {
            return Err((25, number));
        }
        if fields.numbers.contains(&0) {
            return Err((26, number));
        }
        all.push(fields);
    }
    lists_of(&all).card().map_err(number_and_place)
}

/// What a line says, with its newline, if its text is sound.
fn fields(line: &str) -> Option<Fields<'_>> {
    let (word, places) = line.strip_suffix('\n')?.split_once('\t')?;
    let is_word = !word.is_empty() && word.chars().all(|letter| "ACGT".contains(letter));
    let is_mark = |byte: char| ",-".contains(byte);
    let numbers: Option<Vec<u32>> = places.split(is_mark).map(number).collect();
    let numbers = numbers.filter(|numbers| is_word && numbers.len() <= 2)?;
    Some(Fields {
        word,
        numbers,
        mark: places.chars().find(|&byte| is_mark(byte)),
    })
}

/// The number that is written as this and in no other way.
fn number(digits: &str) -> Option<u32> {
    let number: u32 = digits.parse().ok()?;
    (number <= 65_535 && number.to_string() == digits).then_some(number)
}

/// The lists that sound lines ask for; a word that is too long for a card has any value.
fn lists_of(all: &[Fields]) -> Lists {
    let is_span = all.iter().any(|fields| fields.mark == Some('-'));
    let kind = if is_span { SPAN } else { PAIR };
    let l = all.iter().map(|fields| fields.word.len()).max();
    let mut lists = Lists::empty(usize::from(kind), l.unwrap_or(0));
    for Fields { word, numbers, .. } in all {
        let codes = word.chars().map(|letter| "ACGT".find(letter).unwrap_or(0));
        let value = codes.take(12).fold(0, |word, code| 4 * word + code as u32);
        let place = |number: u32| (number - 1) as u16;
        lists.words.push(value);
        lists.ones.push(place(numbers[0]));
        lists.twos.push(match numbers.get(1) {
            Some(&two) => place(two),
            None if is_span => place(numbers[0]),
            None => NO_PLACE,
        });
    }
    lists
}
