//! Symbologies and modes, and the places and counts that can't stand for one another.

use std::fmt;

/// A symbology, with the name and number of document 01.
#[derive(Clone, Copy, PartialEq, Eq, Debug, Hash, PartialOrd, Ord)]
pub enum Symbology {
    /// 1: Code 39. `0-9 A-Z - . space $ / + %`
    Code39,
    /// 2: Code 39 full ASCII. Bytes 20h to 7Fh, some of them drawn as two characters.
    Code39FullAscii,
    /// 3: Codabar. A to D first and last, `0-9 - $ : / . +` between. It has no check.
    Codabar,
    /// 4: Industrial 2 of 5. Digits.
    Industrial2of5,
    /// 5: Interleaved 2 of 5. An even number of digits, the check among them.
    Interleaved2of5,
    /// 6: Matrix 2 of 5. Digits.
    Matrix2of5,
    /// 7: EAN-13. Twelve digits and the check.
    Ean13,
    /// 8: EAN-8. Seven digits and the check.
    Ean8,
    /// 9: UPC-A. Eleven digits and the check.
    UpcA,
}

impl Symbology {
    /// All nine, in the order of their numbers.
    pub const ALL: [Symbology; 9] = [
        Symbology::Code39,
        Symbology::Code39FullAscii,
        Symbology::Codabar,
        Symbology::Industrial2of5,
        Symbology::Interleaved2of5,
        Symbology::Matrix2of5,
        Symbology::Ean13,
        Symbology::Ean8,
        Symbology::UpcA,
    ];

    /// Document 01's number, 1 to 9.
    ///
    /// ```
    /// use strip::Symbology;
    /// assert_eq!(Symbology::Codabar.number(), 3);
    /// assert!(Symbology::ALL.iter().map(|s| s.number()).eq(1..=9));
    /// ```
    pub const fn number(self) -> u8 {
        self as u8 + 1
    }

    /// The symbology of a number, if there is one.
    ///
    /// ```
    /// use strip::Symbology;
    /// assert_eq!(Symbology::from_number(9), Some(Symbology::UpcA));
    /// assert_eq!(Symbology::from_number(0), None);
    /// ```
    pub fn from_number(number: u8) -> Option<Symbology> {
        Symbology::ALL.iter().copied().find(|symbology| symbology.number() == number)
    }
}

/// What is done about the check. Codabar offers `Plain` alone; EAN and UPC offer the other two.
///
/// Code 39's check is the sum of the values of the drawn characters before it, by 43. That of the 2 of 5 codes, EAN and UPC brings the sum
/// of the digits before it to the next multiple of ten; the rightmost of them weighs 3, then 1, 3 and so on.
#[derive(Clone, Copy, PartialEq, Eq, Debug, Hash, PartialOrd, Ord)]
pub enum Mode {
    /// 0: there is no check; the last byte is plain data.
    Plain,
    /// 1: the last data byte is the check and must be right; reading hands it back.
    Checked,
    /// 2: drawing works the check out and adds it; reading tests it and does not hand it back.
    AddCheck,
}

impl Mode {
    /// All three, in the order of their numbers.
    pub const ALL: [Mode; 3] = [Mode::Plain, Mode::Checked, Mode::AddCheck];

    /// Document 01's number, 0 to 2.
    pub const fn number(self) -> u8 {
        self as u8
    }

    /// The mode of a number, if there is one.
    pub fn from_number(number: u8) -> Option<Mode> {
        Mode::ALL.iter().copied().find(|mode| mode.number() == number)
    }
}

/// An index in the data (or in a job record's data field), from 0. In words it is counted from 1.
#[derive(Clone, Copy, PartialEq, Eq, Debug, Hash, PartialOrd, Ord)]
pub struct DataPlace(pub usize);

/// An index in the drawn characters, check included, from 0. In words it is counted from 1.
#[derive(Clone, Copy, PartialEq, Eq, Debug, Hash, PartialOrd, Ord)]
pub struct CharPlace(pub usize);

/// An index in the strip's elements, from 0. In words it is counted from 1.
#[derive(Clone, Copy, PartialEq, Eq, Debug, Hash, PartialOrd, Ord)]
pub struct ElementPlace(pub usize);

/// A number of data bytes.
#[derive(Clone, Copy, PartialEq, Eq, Debug, Hash, PartialOrd, Ord)]
pub struct Bytes(pub usize);

/// A number of elements, bars and spaces together.
#[derive(Clone, Copy, PartialEq, Eq, Debug, Hash, PartialOrd, Ord)]
pub struct Elements(pub usize);

/// A number of modules, the width of a narrow element.
#[derive(Clone, Copy, PartialEq, Eq, Debug, Hash, PartialOrd, Ord)]
pub struct Modules(pub usize);

macro_rules! places {
    ($($kind:ident: $name:expr;)*) => {
        $(impl fmt::Display for $kind {
            fn fmt(&self, f: &mut fmt::Formatter<'_>) -> fmt::Result {
                write!(f, "{} {}", $name, self.0 as u128 + 1)
            }
        })*
    };
}

places! {
    DataPlace: "byte";
    CharPlace: "character";
    ElementPlace: "element";
}

macro_rules! counts {
    ($($kind:ident: $one:expr, $many:expr;)*) => {
        $(impl fmt::Display for $kind {
            fn fmt(&self, f: &mut fmt::Formatter<'_>) -> fmt::Result {
                write!(f, "{} {}", self.0, if self.0 == 1 { $one } else { $many })
            }
        })*
    };
}

counts! {
    Bytes: "byte", "bytes";
    Elements: "element", "elements";
    Modules: "module", "modules";
}
