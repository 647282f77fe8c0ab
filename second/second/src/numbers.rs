//! Every number of the card's layout and limits, of a list's and of a record's, each in one place.

/// The bytes of a block.
pub const BLOCK: usize = 512;
/// Where a block's index stands, in two bytes.
pub const INDEX: usize = 508;
/// Where a block's first sum, a, stands; the bytes before it are summed.
pub const CHECK_A: usize = 510;
/// Where a block's second sum, b, stands.
pub const CHECK_B: usize = 511;
/// What both sums are taken by.
pub const MODULUS: u32 = 255;

/// Where the form stands in block 0.
pub const FORM: usize = 0;
/// Where the kind stands in block 0.
pub const KIND: usize = 1;
/// Where l stands in block 0.
pub const WORD_LENGTH: usize = 2;
/// The spare byte between l and m in block 0.
pub const HEAD_GAP: usize = 3;
/// Where m stands in block 0, in two bytes.
pub const COUNT: usize = 4;
/// Where the spare bytes at the end of block 0 begin; they run to the index.
pub const HEAD_SPARE: usize = 6;

/// The one form of a card.
pub const THE_FORM: u8 = 1;
/// The stored kind of a pair card.
pub const PAIR: u8 = 1;
/// The stored kind of a span card.
pub const SPAN: u8 = 2;

/// The bytes of an entry.
pub const ENTRY: usize = 8;
/// The entries of a full block.
pub const ENTRIES_PER_BLOCK: usize = 63;

/// The fewest letters of a word.
pub const FEWEST_LETTERS: u8 = 2;
/// The most letters of a word.
pub const MOST_LETTERS: u8 = 12;
/// The fewest entries of a card.
pub const FEWEST_ENTRIES: u16 = 1;
/// The most entries of a card.
pub const MOST_ENTRIES: u16 = 504;
/// The most places that a span may hold.
pub const SPAN_WIDTH: u16 = 8;
/// The most places of a span that is narrow.
pub const NARROW_WIDTH: u16 = 4;
/// The most narrow spans over one place of a card that has a build: the entries of this place and of three on each side.
pub const MOST_OVER: usize = 2 * NARROW_WIDTH as usize - 1;
/// What stands for "no second place" on a pair card; it is never a place.
pub const NO_PLACE: u16 = 65_535;

/// What stands between the word and the places on a line of a list.
pub const TAB: u8 = b'\t';
/// What stands between the two places of a pair on a line of a list.
pub const COMMA: u8 = b',';
/// What stands between the first and the last place of a span on a line of a list.
pub const HYPHEN: u8 = b'-';
/// What every line of a list ends in, and every line of a record.
pub const NEWLINE: u8 = b'\n';
/// The largest number on a line of a list.
pub const MOST_LISTED: u32 = 65_535;
/// The most bytes of a line beside its word, on the list of a card: a tab, two numbers of three digits, a mark and a newline.
pub const BESIDE_THE_WORD: usize = 9;

/// What a record begins with.
pub const RECORD_START: u8 = b'>';
/// The most bytes of a record's name.
pub const LONGEST_NAME: usize = 40;
/// The letters of a full line of a record.
pub const LINE_LETTERS: usize = 60;
