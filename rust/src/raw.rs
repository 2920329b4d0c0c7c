//! The library's two calls as they are: any number for symbology and mode, the answer as four numbers.
//!
//! All of this package's unsafe code is here.

use std::os::raw::c_uchar;

/// What the library answers, in document 01's numbers.
#[derive(Clone, Copy, PartialEq, Eq, Debug, Hash)]
pub struct Answer {
    /// 0 for done, otherwise the refusal's number.
    pub number: u64,
    /// The refusal's place, counted from 0, or the count needed for number 8; 0 for done.
    pub place: u64,
    /// Elements drawn or data bytes read; 0 for a refusal.
    pub count: u64,
    /// The strip's modules; 0 for a refusal.
    pub total: u64,
}

extern "C" {
    fn strip_draw(
        symbology: c_uchar,
        mode: c_uchar,
        text: *const u8,
        text_len: usize,
        out: *mut u8,
        out_len: usize,
        answer: *mut u64,
    );
    fn strip_read(
        symbology: c_uchar,
        mode: c_uchar,
        strip: *const u8,
        strip_len: usize,
        out: *mut u8,
        out_len: usize,
        answer: *mut u64,
    );
}

type Call = unsafe extern "C" fn(c_uchar, c_uchar, *const u8, usize, *mut u8, usize, *mut u64);

/// Draws `data` into `out`. On 0 the first `count` bytes of `out` are the strip's widths and the others stay;
/// otherwise all of `out` stays.
///
/// ```
/// let mut out = [9; 20];
/// let answer = strip::raw::draw(5, 0, b"17", &mut out);
/// assert_eq!((answer.number, answer.place, answer.count, answer.total), (0, 0, 17, 27));
/// assert_eq!(out, [1, 1, 1, 1, 3, 1, 1, 1, 1, 1, 1, 3, 3, 3, 3, 1, 1, 9, 9, 9]);
///
/// assert_eq!(strip::raw::draw(0, 0, b"17", &mut out).number, 1);
/// assert_eq!(strip::raw::draw(5, 7, b"17", &mut out).number, 2);
/// ```
pub fn draw(symbology: u8, mode: u8, data: &[u8], out: &mut [u8]) -> Answer {
    call(strip_draw, symbology, mode, data, out)
}

/// Reads `strip` into `out`. On 0 the first `count` bytes of `out` are the data and the others stay; otherwise all of
/// `out` stays.
///
/// ```
/// let strip = [1, 1, 1, 1, 3, 1, 1, 1, 1, 1, 1, 3, 3, 3, 3, 1, 1];
/// let mut out = [9; 3];
/// let answer = strip::raw::read(5, 0, &strip, &mut out);
/// assert_eq!((answer.number, answer.place, answer.count, answer.total), (0, 0, 2, 27));
/// assert_eq!(&out, b"17\x09");
/// ```
pub fn read(symbology: u8, mode: u8, strip: &[u8], out: &mut [u8]) -> Answer {
    call(strip_read, symbology, mode, strip, out)
}

fn call(call: Call, symbology: u8, mode: u8, text: &[u8], out: &mut [u8]) -> Answer {
    // No number of document 01: an answer that is not written is seen.
    let mut answer = [u64::MAX; 4];
    // SAFETY: both calls have this signature. Pointers and lengths are those of live slices, so each is valid for its
    // length (an empty slice's pointer is not null, and no byte of it is looked at); `answer` has four places; `out`
    // and `answer` are borrowed for writing by this function alone. The calls keep no pointer.
    unsafe {
        call(symbology, mode, text.as_ptr(), text.len(), out.as_mut_ptr(), out.len(), answer.as_mut_ptr());
    }
    let [number, place, count, total] = answer;
    Answer { number, place, count, total }
}
