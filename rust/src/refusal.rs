//! Why a request or a strip is turned away.

use crate::{Bytes, CharPlace, DataPlace, ElementPlace, Elements};
use std::fmt;

/// The first rule that is broken, with its place.
///
/// In words ([`Display`](fmt::Display)) places are counted from 1, as a clerk counts; in the types and in
/// [`place`](Refusal::place) from 0, as document 01 counts.
///
/// ```
/// use strip::{draw, CharPlace, DataPlace, Mode, Refusal, Symbology};
///
/// let refusal = draw(Symbology::Code39, Mode::Plain, b"W0a").unwrap_err();
/// assert_eq!(refusal, Refusal::Byte(DataPlace(2)));
/// assert_eq!((refusal.number(), refusal.place()), (4, 2));
/// assert_eq!(refusal.to_string(), "byte 3 of the data is not allowed there");
///
/// // The bytes a and 1 are drawn as the three characters +A1, so the check is the fourth.
/// let refusal = draw(Symbology::Code39FullAscii, Mode::Checked, b"a1A").unwrap_err();
/// assert_eq!(refusal, Refusal::Check(CharPlace(3)));
/// assert_eq!(refusal.to_string(), "the check is wrong: character 4 of those drawn");
/// ```
#[derive(Clone, Copy, PartialEq, Eq, Debug, Hash)]
#[non_exhaustive]
pub enum Refusal {
    /// 1: the symbology is not 1 to 9. Only job records and the calls of [`raw`](crate::raw) can ask so.
    Symbology,
    /// 2: the symbology does not offer the mode.
    Mode,
    /// 3: too few or too many data bytes.
    DataCount,
    /// 4: this byte is not allowed where it stands; the first such one.
    Byte(DataPlace),
    /// 5: Interleaved 2 of 5, and the number of digits, check included, is odd.
    OddCount,
    /// 6: full ASCII, and more than 32 characters would be drawn.
    TooManyCharacters,
    /// 7: the check character is wrong.
    Check(CharPlace),
    /// 8, in drawing: the lent buffer is too short for so many elements.
    ElementsNeeded(Elements),
    /// 8, in reading: the lent buffer is too short for so many data bytes.
    BytesNeeded(Bytes),
    /// 9: no strip of this symbology and mode has this length.
    StripLength,
    /// 10: the unit that begins here (guard, start, stop, space between, character or pair) is in no table.
    NoRow(ElementPlace),
    /// 11: EAN-13, and the parities of the left digits match no first digit. Its place is always element 3.
    Parities,
    /// 12: full ASCII, and what begins here is drawn for no byte.
    NotAnExpansion(CharPlace),
    /// 13: a job record's byte behind the data is not zero. Only job records are answered so.
    AfterData(DataPlace),
}

/// What was asked: number 8's place is a count of elements in drawing, and of data bytes in reading.
#[derive(Clone, Copy, PartialEq, Eq, Debug, Hash)]
pub enum Asked {
    /// A request was to be drawn, by a call or a job record.
    Draw,
    /// A strip was to be read.
    Read,
}

impl Refusal {
    /// Document 01's number, 1 to 13.
    pub const fn number(self) -> u8 {
        match self {
            Refusal::Symbology => 1,
            Refusal::Mode => 2,
            Refusal::DataCount => 3,
            Refusal::Byte(_) => 4,
            Refusal::OddCount => 5,
            Refusal::TooManyCharacters => 6,
            Refusal::Check(_) => 7,
            Refusal::ElementsNeeded(_) | Refusal::BytesNeeded(_) => 8,
            Refusal::StripLength => 9,
            Refusal::NoRow(_) => 10,
            Refusal::Parities => 11,
            Refusal::NotAnExpansion(_) => 12,
            Refusal::AfterData(_) => 13,
        }
    }

    /// Document 01's place as a bare number: an index from 0, or the count needed for number 8.
    pub const fn place(self) -> usize {
        match self {
            Refusal::Symbology
            | Refusal::Mode
            | Refusal::DataCount
            | Refusal::OddCount
            | Refusal::TooManyCharacters
            | Refusal::StripLength => 0,
            Refusal::Parities => 3,
            Refusal::Byte(DataPlace(place)) | Refusal::AfterData(DataPlace(place)) => place,
            Refusal::Check(CharPlace(place)) | Refusal::NotAnExpansion(CharPlace(place)) => place,
            Refusal::NoRow(ElementPlace(place)) => place,
            Refusal::ElementsNeeded(Elements(count)) => count,
            Refusal::BytesNeeded(Bytes(count)) => count,
        }
    }

    /// The refusal of a number and a place, as the raw calls or a job program's line have them. `None` if what was asked
    /// is never answered so.
    ///
    /// ```
    /// use strip::{Asked, Bytes, DataPlace, Elements, Refusal};
    /// assert_eq!(Refusal::from_numbers(Asked::Draw, 8, 17), Some(Refusal::ElementsNeeded(Elements(17))));
    /// assert_eq!(Refusal::from_numbers(Asked::Read, 8, 2), Some(Refusal::BytesNeeded(Bytes(2))));
    /// assert_eq!(Refusal::from_numbers(Asked::Draw, 13, 4), Some(Refusal::AfterData(DataPlace(4))));
    /// assert_eq!(Refusal::from_numbers(Asked::Draw, 0, 0), None);
    /// assert_eq!(Refusal::from_numbers(Asked::Draw, 5, 1), None);
    /// ```
    pub fn from_numbers(asked: Asked, number: u64, place: u64) -> Option<Refusal> {
        let at = usize::try_from(place).ok()?;
        let refusal = match (asked, number) {
            (_, 1) => Refusal::Symbology,
            (_, 2) => Refusal::Mode,
            (Asked::Draw, 3) => Refusal::DataCount,
            (Asked::Draw, 4) => Refusal::Byte(DataPlace(at)),
            (Asked::Draw, 5) => Refusal::OddCount,
            (Asked::Draw, 6) => Refusal::TooManyCharacters,
            (_, 7) => Refusal::Check(CharPlace(at)),
            (Asked::Draw, 8) => Refusal::ElementsNeeded(Elements(at)),
            (Asked::Read, 8) => Refusal::BytesNeeded(Bytes(at)),
            (Asked::Read, 9) => Refusal::StripLength,
            (Asked::Read, 10) => Refusal::NoRow(ElementPlace(at)),
            (Asked::Read, 11) => Refusal::Parities,
            (Asked::Read, 12) => Refusal::NotAnExpansion(CharPlace(at)),
            (Asked::Draw, 13) => Refusal::AfterData(DataPlace(at)),
            _ => return None,
        };
        Some(refusal).filter(|refusal| refusal.place() == at)
    }
}

impl fmt::Display for Refusal {
    fn fmt(&self, f: &mut fmt::Formatter<'_>) -> fmt::Result {
        match self {
            Refusal::Symbology => write!(f, "there is no such symbology: they are numbered 1 to 9"),
            Refusal::Mode => write!(f, "this symbology does not offer that mode"),
            Refusal::DataCount => write!(f, "too few or too many data bytes for this symbology and mode"),
            Refusal::Byte(place) => write!(f, "{place} of the data is not allowed there"),
            Refusal::OddCount => {
                write!(f, "Interleaved 2 of 5 takes an even number of digits, the check digit among them")
            }
            Refusal::TooManyCharacters => write!(f, "the data would be drawn as more than 32 characters"),
            Refusal::Check(place) => write!(f, "the check is wrong: {place} of those drawn"),
            Refusal::ElementsNeeded(count) => write!(f, "the buffer is too short: the strip has {count}"),
            Refusal::BytesNeeded(count) => write!(f, "the buffer is too short: the data have {count}"),
            Refusal::StripLength => write!(f, "no strip of this symbology and mode has that many elements"),
            Refusal::NoRow(place) => {
                write!(f, "what begins at {place} of the strip is no pattern that may stand there")
            }
            Refusal::Parities => {
                let place = ElementPlace(self.place());
                write!(f, "the left digits, from {place} of the strip on, stand for no first digit")
            }
            Refusal::NotAnExpansion(place) => write!(f, "what begins at {place} of those drawn stands for no byte"),
            Refusal::AfterData(place) => write!(f, "{place} of the data field stands behind the data and is not zero"),
        }
    }
}

impl std::error::Error for Refusal {}
