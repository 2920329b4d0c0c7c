//! Bar-code strips: data drawn as element widths, and widths read back as data.
//!
//! A strip is a row of element widths in modules, one byte each, bar first, then space, bar and so on, without quiet
//! margins. Nine [symbologies](Symbology), three [modes](Mode). The work is done by a library that is proved in Rattle;
//! this package wraps its two calls in types of Rust.
//!
//! ```
//! use strip::{draw, read, Elements, Mode, Modules, Symbology};
//!
//! let drawn = draw(Symbology::Codabar, Mode::Plain, b"A5B")?;
//! assert_eq!(drawn.strip, [1, 1, 3, 3, 1, 3, 1, 1, 3, 1, 1, 1, 1, 3, 1, 1, 1, 3, 1, 3, 1, 1, 3]);
//! assert_eq!((drawn.elements, drawn.modules), (Elements(23), Modules(39)));
//!
//! let back = read(Symbology::Codabar, Mode::Plain, &drawn.strip)?;
//! assert_eq!(back.data, b"A5B");
//! # Ok::<(), strip::Refusal>(())
//! ```
//!
//! What is turned away says why and where; nothing is written then:
//!
//! ```
//! use strip::{draw, Mode, Refusal, Symbology};
//!
//! let refusal = draw(Symbology::Interleaved2of5, Mode::Plain, b"417").unwrap_err();
//! assert_eq!(refusal, Refusal::OddCount);
//! assert_eq!(refusal.number(), 5);
//! ```

#![deny(missing_docs)]
#![deny(unsafe_code)]

#[allow(unsafe_code)]
pub mod raw;
mod refusal;
mod words;

pub use refusal::{Asked, Refusal};
pub use words::{Bytes, CharPlace, DataPlace, ElementPlace, Elements, Mode, Modules, Symbology};

/// The elements of the longest strip, Code 39 with 32 characters: a buffer of this length is never too short to draw in.
pub const STRIP_ROOM: usize = 339;

/// The most data bytes a strip holds, Codabar's 34: a buffer of this length is never too short to read into.
pub const DATA_ROOM: usize = 34;

/// A strip that was drawn. `strip` has exactly `elements` widths, and their sum is `modules`.
#[derive(Clone, Copy, PartialEq, Eq, Debug, Hash)]
pub struct Drawn<S = Vec<u8>> {
    /// The widths: owned, or the front of the lent buffer.
    pub strip: S,
    /// How many bars and spaces.
    pub elements: Elements,
    /// The strip's width.
    pub modules: Modules,
}

/// Data that were read from a strip. `data` has exactly `bytes` bytes.
#[derive(Clone, Copy, PartialEq, Eq, Debug, Hash)]
pub struct Read<D = Vec<u8>> {
    /// The data: owned, or the front of the lent buffer.
    pub data: D,
    /// How many data bytes.
    pub bytes: Bytes,
    /// The width of the strip that was read.
    pub modules: Modules,
}

/// Draws `data` as a strip of its own.
///
/// ```
/// use strip::{draw, Mode, Symbology};
/// let drawn = draw(Symbology::Matrix2of5, Mode::Plain, b"4")?;
/// assert_eq!(drawn.strip, [3, 1, 1, 1, 1, 1, 1, 1, 3, 1, 3, 1, 3, 1, 1, 1, 1]);
/// # Ok::<(), strip::Refusal>(())
/// ```
pub fn draw(symbology: Symbology, mode: Mode, data: &[u8]) -> Result<Drawn, Refusal> {
    let mut strip = vec![0; STRIP_ROOM];
    let Drawn { elements, modules, .. } = draw_into(symbology, mode, data, &mut strip)?;
    strip.truncate(elements.0);
    Ok(Drawn { strip, elements, modules })
}

/// Draws `data` into a lent buffer. Only the strip's own elements are written, and nothing on a refusal.
///
/// ```
/// use strip::{draw_into, Elements, Mode, Refusal, Symbology};
/// let mut buffer = [0; 60];
/// let drawn = draw_into(Symbology::Ean8, Mode::AddCheck, b"1076221", &mut buffer)?;
/// assert_eq!(drawn.elements, Elements(43));
/// assert_eq!(drawn.strip.len(), 43);
///
/// let refusal = draw_into(Symbology::Ean8, Mode::AddCheck, b"1076221", &mut []).unwrap_err();
/// assert_eq!(refusal, Refusal::ElementsNeeded(Elements(43)));
/// # Ok::<(), strip::Refusal>(())
/// ```
pub fn draw_into<'b>(
    symbology: Symbology,
    mode: Mode,
    data: &[u8],
    buffer: &'b mut [u8],
) -> Result<Drawn<&'b [u8]>, Refusal> {
    let answer = raw::draw(symbology.number(), mode.number(), data, buffer);
    let (count, modules) = done(Asked::Draw, answer)?;
    Ok(Drawn { strip: &buffer[..count], elements: Elements(count), modules })
}

/// Reads a strip and returns its data.
///
/// ```
/// use strip::{draw, read, Bytes, Mode, Symbology};
/// let drawn = draw(Symbology::Interleaved2of5, Mode::AddCheck, b"00417")?;
/// // The check is drawn and tested, and not handed back in this mode.
/// let back = read(Symbology::Interleaved2of5, Mode::AddCheck, &drawn.strip)?;
/// assert_eq!((back.data, back.bytes), (b"00417".to_vec(), Bytes(5)));
/// let back = read(Symbology::Interleaved2of5, Mode::Checked, &drawn.strip)?;
/// assert_eq!(back.data, b"004176");
/// # Ok::<(), strip::Refusal>(())
/// ```
pub fn read(symbology: Symbology, mode: Mode, strip: &[u8]) -> Result<Read, Refusal> {
    let mut data = vec![0; DATA_ROOM];
    let Read { bytes, modules, .. } = read_into(symbology, mode, strip, &mut data)?;
    data.truncate(bytes.0);
    Ok(Read { data, bytes, modules })
}

/// Reads a strip into a lent buffer. Only the data's own bytes are written, and nothing on a refusal.
///
/// ```
/// use strip::{draw, read_into, ElementPlace, Mode, Refusal, Symbology};
/// let mut strip = draw(Symbology::UpcA, Mode::AddCheck, b"00000000417")?.strip;
/// let mut buffer = [0; 34];
/// let back = read_into(Symbology::UpcA, Mode::Checked, &strip, &mut buffer)?;
/// assert_eq!(back.data, b"000000004176");
///
/// strip[4] = 4; // an element of the first digit, which begins behind the three of the guard
/// let refusal = read_into(Symbology::UpcA, Mode::Checked, &strip, &mut buffer).unwrap_err();
/// assert_eq!(refusal, Refusal::NoRow(ElementPlace(3)));
/// # Ok::<(), strip::Refusal>(())
/// ```
pub fn read_into<'b>(
    symbology: Symbology,
    mode: Mode,
    strip: &[u8],
    buffer: &'b mut [u8],
) -> Result<Read<&'b [u8]>, Refusal> {
    let answer = raw::read(symbology.number(), mode.number(), strip, buffer);
    let (count, modules) = done(Asked::Read, answer)?;
    Ok(Read { data: &buffer[..count], bytes: Bytes(count), modules })
}

/// Count and modules of an accepted call, or its refusal.
fn done(asked: Asked, answer: raw::Answer) -> Result<(usize, Modules), Refusal> {
    if answer.number == 0 {
        return Ok((answer.count as usize, Modules(answer.total as usize)));
    }
    // The library is proved to answer with these numbers and places; another archive was linked if it does not.
    Err(Refusal::from_numbers(asked, answer.number, answer.place)
        .unwrap_or_else(|| panic!("the library answered {answer:?}, which document 01 does not have")))
}
