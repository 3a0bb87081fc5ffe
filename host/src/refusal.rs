//! Why a call was turned down.

use std::fmt;

/// The reason for which a call was refused: a row of the table of refusals. Rows may be added: a `match` needs an arm for all others.
///
/// ```
/// use balzenoh::{Key, Refusal};
///
/// let refusal = Key::from_slice(&[7; 15]).unwrap_err();
/// assert_eq!(refusal, Refusal::KeyLength);
/// assert!(refusal.to_string().starts_with("refusal 1: The key is neither 16 nor 32 bytes long."));
/// ```
#[derive(Clone, Copy, Debug, PartialEq, Eq, Hash)]
#[non_exhaustive]
pub enum Refusal {
    /// 1: the key is neither 16 nor 32 bytes.
    KeyLength,
    /// 2: the IV is not 16 bytes.
    IvLength,
    /// 3: the message, sealed record, run, tag, mask or text has a length that no such thing has.
    Length,
    /// 4: the blocks reach beyond the limit of 1,048,576, or a jump does, forward or back.
    BeyondLimit,
    /// 5: the lent output is shorter than the answer. In opening that is the message, and the tag and the padding are right.
    OutputTooShort,
    /// 6: the tag differs.
    TagDiffers,
    /// 7: the tag is right, and the last block is not padded.
    Padding,
    /// 8: two records in turn are not neighbours.
    NotNeighbours,
    /// 9: the record is not one of a whole message, or the list of records is empty.
    NotWhole,
    /// 10: the start mask is still zero after its replacement: the first 16 bytes of the key are zeros, and the IV is the one with
    /// which each block would go out unmasked.
    ZeroMask,
    /// 24: a run record is not 24 bytes.
    RecordLength,
    /// A number that the library does not have. It is never expected.
    Unknown(UnknownNumber),
}

/// A number that stands in no row of the table. Only [`Refusal::from_number`] makes one, so that it is none of those.
///
/// ```compile_fail
/// let refusal = balzenoh::Refusal::Unknown(6);
/// ```
/// ```compile_fail
/// let number = balzenoh::UnknownNumber(6);
/// ```
#[derive(Clone, Copy, Debug, PartialEq, Eq, Hash)]
pub struct UnknownNumber(u8);

/// Number, refusal, and the sentence for a technician at the machine: what was wrong and what to look at.
const TABLE: [(u8, Refusal, &str); 11] = [
    (
        1,
        Refusal::KeyLength,
        "The key is neither 16 nor 32 bytes long. Look at the key: it must be 32 or 64 hexadecimal digits, or a file of 16 or 32 \
         bytes, with nothing missing and nothing added.",
    ),
    (
        2,
        Refusal::IvLength,
        "The IV (the start value of the list) is not 16 bytes long. Look at the IV: it must be 32 hexadecimal digits, or a file \
         of 16 bytes.",
    ),
    (
        3,
        Refusal::Length,
        "Something has a length that it cannot have. A list to seal has at most 16,777,215 bytes. A sealed list has 48 to \
         16,777,248 bytes, and 16 divides its size, as it does that of every part of a list but the last one before sealing. A \
         tag or mask has 16 bytes. With the hash finish a sealed list and a tag have 4 bytes more. A text for SHA-1 has at most \
         64,032 bytes. Look whether the file is the right one and was copied whole, and whether both machines have the same \
         finish.",
    ),
    (
        4,
        Refusal::BeyondLimit,
        "The blocks go beyond the limit of 1,048,576 that a list may have. Look at the number of the first block, and at the size \
         of this part of the list; where a mask is to jump, at the distance, which is at most 1,048,576 forward or back.",
    ),
    (
        5,
        Refusal::OutputTooShort,
        "The memory lent for the answer is too small. Look at the program that made this call: it must lend room for the whole \
         answer.",
    ),
    (
        6,
        Refusal::TagDiffers,
        "The list is not the one that was sealed, or the key is another one. Do not use this list: fetch it again, and look \
         whether both machines have the same key.",
    ),
    (
        7,
        Refusal::Padding,
        "The list is undamaged, but it does not end as a list must end. Do not use this list: look at the program that sealed \
         it, which left out the end mark.",
    ),
    (
        8,
        Refusal::NotNeighbours,
        "The parts of the list do not follow each other: one is missing, stands twice or is in the wrong place. Look at the \
         order of the records: each part must start at the block where the one before it ends.",
    ),
    (
        9,
        Refusal::NotWhole,
        "There is no whole list here: its beginning is missing, or it has no part at all. Look whether all records were handed \
         in and joined, from block 0 on.",
    ),
    (
        10,
        Refusal::ZeroMask,
        "The first 16 bytes of the key are zeros, and with this IV nothing would hide the list. A key of zeros is no key. Load a \
         real key, 16 or 32 bytes from a random source, into every machine that seals or opens this list.",
    ),
    (
        24,
        Refusal::RecordLength,
        "A run record is not 24 bytes long. Look at the record: it must be 48 hexadecimal digits, or a file of 24 bytes, with \
         nothing missing and nothing added.",
    ),
];

const UNKNOWN: &str =
    "The library gave a number that it does not have. Do not use the answer: look whether this program and the \
                       library belong together.";

impl Refusal {
    /// The refusal with a number of the library. 0 is no refusal, and comes out as unknown.
    ///
    /// ```
    /// use balzenoh::Refusal;
    ///
    /// assert_eq!(Refusal::from_number(6), Refusal::TagDiffers);
    /// assert!(matches!(Refusal::from_number(11), Refusal::Unknown(_)));
    /// ```
    pub fn from_number(number: u8) -> Self {
        let row = TABLE.iter().find(|(known, ..)| *known == number);
        row.map_or(Self::Unknown(UnknownNumber(number)), |(_, refusal, _)| *refusal)
    }

    /// The number in the table of refusals.
    ///
    /// ```
    /// use balzenoh::Refusal;
    ///
    /// assert_eq!(Refusal::TagDiffers.number(), 6);
    /// assert_eq!(Refusal::from_number(11).number(), 11);
    /// ```
    pub fn number(self) -> u8 {
        self.row().0
    }

    /// What was wrong and what to look at, for a technician at the machine.
    ///
    /// ```
    /// assert!(balzenoh::Refusal::TagDiffers.sentence().contains("Do not use this list"));
    /// ```
    pub fn sentence(self) -> &'static str {
        self.row().1
    }

    fn row(self) -> (u8, &'static str) {
        if let Self::Unknown(UnknownNumber(number)) = self {
            return (number, UNKNOWN);
        }
        let row = TABLE.iter().find(|(_, refusal, _)| *refusal == self);
        row.map_or((u8::MAX, UNKNOWN), |(number, _, sentence)| (*number, sentence))
    }
}

impl fmt::Display for Refusal {
    fn fmt(&self, f: &mut fmt::Formatter<'_>) -> fmt::Result {
        write!(f, "refusal {}: {}", self.number(), self.sentence())
    }
}

impl std::error::Error for Refusal {}

#[cfg(test)]
mod tests {
    use super::{Refusal, UNKNOWN};

    #[test]
    fn every_number_comes_back_and_has_a_sentence() {
        for number in 0..=255 {
            let refusal = Refusal::from_number(number);
            assert_eq!(refusal.number(), number);
            let known = matches!(number, 1..=10 | 24);
            assert_eq!(matches!(refusal, Refusal::Unknown(_)), !known);
            assert_eq!(refusal.sentence() == UNKNOWN, !known);
        }
    }
}
