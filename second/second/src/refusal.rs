//! Why a call is refused, and at which place.

/// The condition that a refusal stands for; its value is the refusal's number.
#[derive(Clone, Copy, Debug, PartialEq, Eq)]
#[repr(u8)]
pub enum Reason {
    /// The card is under 512 bytes.
    Short = 1,
    /// A block's a or b differs.
    Check = 2,
    /// A block's index field differs.
    Index = 3,
    /// The form is not 1.
    Form = 4,
    /// The kind is not 1 or 2.
    Kind = 5,
    /// l is out of its limits.
    WordLength = 6,
    /// m is out of its limits.
    Count = 7,
    /// A byte that must be zero is not.
    Spare = 8,
    /// The card has fewer or more bytes than m entries take.
    Size = 9,
    /// A word's value is 4^l or more.
    Word = 10,
    /// A place rule or the width is broken, or a place is above m−1.
    Places = 11,
    /// A lent output is too short.
    Room = 12,
    /// The three lists differ in length.
    Lists = 13,
    /// There is no such block or entry.
    Absent = 14,
    /// A name is not as it must be, or no record begins with one.
    Name = 20,
    /// A byte of a record is no letter, or there is none.
    Letter = 21,
    /// A break is missing, or stands elsewhere than the rule puts it.
    Line = 22,
    /// A line of a list is not as its text must be.
    Text = 23,
    /// A line's mark differs from an earlier one.
    Mixed = 24,
    /// A word's length is not that of the first word.
    Uneven = 25,
    /// A listed place is 0.
    Zero = 26,
    /// A span is wider than a narrow one may be.
    Wider = 30,
}

impl Reason {
    /// The refusal for this reason at the given place.
    pub fn at(self, place: usize) -> Refusal {
        Refusal {
            reason: self,
            place,
        }
    }
}

/// A refusal: its reason, and the block, the entry, the line, the letters before it or the 0 that it points to.
#[derive(Clone, Copy, Debug, PartialEq, Eq)]
pub struct Refusal {
    /// The condition that was met.
    pub reason: Reason,
    /// The block or entry where it was met, from 0, or the line, from 1, or the number of letters before it, or 0 where no place is stated.
    pub place: usize,
}

impl Refusal {
    /// The number that the scope document gives to this refusal.
    pub fn number(self) -> u8 {
        self.reason as u8
    }
}
