//! Document 01 a second time, in plain Rust, written from the document and the sources and not from the library's code.
//!
//! Drawn characters are kept as the characters themselves (`+A19`), not as values in a table.

pub mod tables;

use tables::*;

/// Number, place, count, total.
pub type Answer = [u64; 4];

/// A refusal's number and place.
pub type Refused = (u64, usize);

/// Draws `data` into `room`.
pub fn draw(symbology: u8, mode: u8, data: &[u8], room: &mut [u8]) -> Answer {
    match characters(symbology, mode, data) {
        Ok(drawn) => {
            let strip = lay_out(symbology, &drawn);
            hand_over(&strip, modules(&strip), room)
        }
        Err(refused) => refuse(refused),
    }
}

/// Reads `strip` into `room`.
pub fn read(symbology: u8, mode: u8, strip: &[u8], room: &mut [u8]) -> Answer {
    match seen(symbology, mode, strip).and_then(|drawn| meant(symbology, mode, &drawn)) {
        Ok(data) => hand_over(&data, modules(strip), room),
        Err(refused) => refuse(refused),
    }
}

fn hand_over(bytes: &[u8], modules: u64, room: &mut [u8]) -> Answer {
    if room.len() < bytes.len() {
        return refuse((8, bytes.len()));
    }
    room[..bytes.len()].copy_from_slice(bytes);
    [0, 0, bytes.len() as u64, modules]
}

fn refuse((number, place): Refused) -> Answer {
    [number, place as u64, 0, 0]
}

fn modules(strip: &[u8]) -> u64 {
    strip.iter().map(|&width| u64::from(width)).sum()
}

// The table of symbologies.

/// Least and most data bytes, or refusal 1 or 2.
pub fn data_limits(symbology: u8, mode: u8) -> Result<(usize, usize), Refused> {
    match (symbology, mode) {
        (1 | 2 | 4 | 5 | 6, 0) => Ok((1, 32)),
        (1 | 2 | 4 | 5 | 6, 1) => Ok((2, 32)),
        (1 | 2 | 4 | 5 | 6, 2) => Ok((1, 31)),
        (3, 0) => Ok((3, 34)),
        (7, 1) => Ok((13, 13)),
        (7, 2) => Ok((12, 12)),
        (8, 1) => Ok((8, 8)),
        (8, 2) => Ok((7, 7)),
        (9, 1) => Ok((12, 12)),
        (9, 2) => Ok((11, 11)),
        (1..=9, _) => Err((2, 0)),
        _ => Err((1, 0)),
    }
}

/// Elements of a strip with n drawn characters, by the table.
pub fn elements(symbology: u8, n: usize) -> usize {
    match symbology {
        1 | 2 => 10 * n + 19,
        3 => 8 * n - 1,
        4 => 10 * n + 11,
        5 => 5 * n + 7,
        6 => 6 * n + 11,
        8 => 43,
        _ => 59,
    }
}

/// Whether the mode can give n drawn characters, as document 01 words it for refusal 9.
pub fn can_give(symbology: u8, mode: u8, n: usize) -> bool {
    let least = if mode == 0 { 1 } else { 2 };
    match symbology {
        1 | 2 | 4 | 6 => least <= n && n <= 32,
        5 => least <= n && n <= 32 && n % 2 == 0,
        3 => (3..=34).contains(&n),
        7 => n == 13,
        8 => n == 8,
        _ => n == 12,
    }
}

// Data to drawn characters.

/// The drawn characters of a request, or the first of refusals 1 to 7 that applies.
pub fn characters(symbology: u8, mode: u8, data: &[u8]) -> Result<Vec<u8>, Refused> {
    let (least, most) = data_limits(symbology, mode)?;
    if data.len() < least || data.len() > most {
        return Err((3, 0));
    }
    let last = data.len() - 1;
    let mut drawn = Vec::new();
    for (place, &byte) in data.iter().enumerate() {
        let allowed = match symbology {
            2 if !(mode == 1 && place == last) => match drawing_code(byte) {
                Some(code) => {
                    drawn.extend_from_slice(code);
                    continue;
                }
                None => false,
            },
            1 | 2 => VALUES.contains(&byte),
            3 if place == 0 || place == last => b"ABCD".contains(&byte),
            3 => b"0123456789-$:/.+".contains(&byte),
            _ => byte.is_ascii_digit(),
        };
        if !allowed {
            return Err((4, place));
        }
        drawn.push(byte);
    }
    if mode == 2 {
        drawn.push(check(symbology, &drawn));
    }
    if symbology == 5 && drawn.len() % 2 == 1 {
        return Err((5, 0));
    }
    if symbology == 2 && drawn.len() > 32 {
        return Err((6, 0));
    }
    if mode == 1 {
        let at = drawn.len() - 1;
        if drawn[at] != check(symbology, &drawn[..at]) {
            return Err((7, at));
        }
    }
    Ok(drawn)
}

/// The characters that full ASCII draws for a byte.
pub fn drawing_code(byte: u8) -> Option<&'static [u8]> {
    if (0x20..=0x7f).contains(&byte) {
        Some(FULL_ASCII[usize::from(byte % 16)][usize::from(byte / 16 - 2)].as_bytes())
    } else {
        None
    }
}

/// The check character behind these.
pub fn check(symbology: u8, before: &[u8]) -> u8 {
    if symbology <= 2 {
        let value = |c: &u8| VALUES.iter().position(|v| v == c).expect("a character of table 4.3");
        return VALUES[before.iter().map(value).sum::<usize>() % 43];
    }
    // The rightmost weighs 3, then 1, 3 and so on (4 to 6: document 02, ticket 1).
    let mut sum = 0;
    let mut weight = 3;
    for digit in before.iter().rev() {
        sum += weight * u32::from(digit - b'0');
        weight = 4 - weight;
    }
    let mut check = 0;
    while (sum + u32::from(check)) % 10 != 0 {
        check += 1;
    }
    b'0' + check
}

// Drawn characters to a strip.

/// The code of a character in its table.
fn code<'t>(table: &'t [(u8, &'t str)], character: u8) -> &'t str {
    table.iter().find(|(c, _)| *c == character).expect("a character of the table").1
}

/// The strip of a row of drawn characters.
pub fn lay_out(symbology: u8, drawn: &[u8]) -> Vec<u8> {
    let mut strip = Vec::with_capacity(elements(symbology, drawn.len()));
    match symbology {
        1 | 2 => {
            put(&mut strip, STAR);
            for &c in drawn {
                strip.push(1);
                put(&mut strip, code(&CODE39, c));
            }
            strip.push(1);
            put(&mut strip, STAR);
        }
        3 => {
            for (i, &c) in drawn.iter().enumerate() {
                if i > 0 {
                    strip.push(1);
                }
                let table: &[_] = if c.is_ascii_uppercase() { &CODABAR_ENDS } else { &CODABAR_INNER };
                put(&mut strip, code(table, c));
            }
        }
        4 => {
            put(&mut strip, &bars_only(INDUSTRIAL_START));
            for &c in drawn {
                strip.push(1);
                put(&mut strip, &bars_only(code(&TWO_OF_FIVE, c)));
            }
            strip.push(1);
            put(&mut strip, &bars_only(INDUSTRIAL_STOP));
        }
        5 => {
            put(&mut strip, INTERLEAVED_START);
            for pair in drawn.chunks(2) {
                put(&mut strip, &woven(code(&TWO_OF_FIVE, pair[0]), code(&TWO_OF_FIVE, pair[1])));
            }
            put(&mut strip, INTERLEAVED_STOP);
        }
        6 => {
            put(&mut strip, MATRIX_END);
            for &c in drawn {
                strip.push(1);
                put(&mut strip, code(&TWO_OF_FIVE, c));
            }
            strip.push(1);
            put(&mut strip, MATRIX_END);
        }
        _ => {
            let (parities, left, right) = match symbology {
                7 => (PARITIES[usize::from(drawn[0] - b'0')], &drawn[1..7], &drawn[7..]),
                8 => ("OOOO", &drawn[..4], &drawn[4..]),
                _ => ("OOOOOO", &drawn[..6], &drawn[6..]),
            };
            strip.extend([1; 3]);
            for (&c, parity) in left.iter().zip(parities.chars()) {
                strip.extend(runs(EAN[usize::from(c - b'0')].1[if parity == 'O' { 0 } else { 1 }]));
            }
            strip.extend([1; 5]);
            for &c in right {
                strip.extend(runs(EAN[usize::from(c - b'0')].1[2]));
            }
            strip.extend([1; 3]);
        }
    }
    strip
}

/// Puts a two-width code: 0 narrow, 1 wide.
fn put(strip: &mut Vec<u8>, code: &str) {
    strip.extend(code.bytes().map(width));
}

fn width(bit: u8) -> u8 {
    if bit == b'1' {
        3
    } else {
        1
    }
}

/// A code of bars, with narrow spaces between them.
fn bars_only(code: &str) -> String {
    let mut all = String::new();
    for bit in code.chars() {
        if !all.is_empty() {
            all.push('0');
        }
        all.push(bit);
    }
    all
}

/// Two codes, bar and space in turn.
fn woven(bars: &str, spaces: &str) -> String {
    bars.chars().zip(spaces.chars()).flat_map(|(bar, space)| [bar, space]).collect()
}

/// The widths of a seven-module pattern: how often each bit stands in a row.
fn runs(pattern: &str) -> [u8; 4] {
    let bits = pattern.as_bytes();
    let mut widths = [0; 4];
    let mut run = 0;
    for i in 0..7 {
        if i > 0 && bits[i] != bits[i - 1] {
            run += 1;
        }
        widths[run] += 1;
    }
    widths
}

// A strip to drawn characters.

/// The lengths of the units, from left to right, of a strip with n drawn characters.
pub fn units(symbology: u8, n: usize) -> Vec<usize> {
    let (first, group, times, last): (&[usize], &[usize], usize, &[usize]) = match symbology {
        1 | 2 => (&[9, 1], &[9, 1], n, &[9]),
        3 => (&[7, 1], &[7, 1], n - 2, &[7]),
        4 => (&[5, 1], &[9, 1], n, &[5]),
        5 => (&[4], &[10], n / 2, &[3]),
        6 => (&[5, 1], &[5, 1], n, &[5]),
        8 => (&[3, 4, 4, 4, 4, 5], &[4], 4, &[3]),
        _ => (&[3, 4, 4, 4, 4, 4, 4, 5], &[4], 6, &[3]),
    };
    let mut lengths = first.to_vec();
    for _ in 0..times {
        lengths.extend(group);
    }
    lengths.extend(last);
    lengths
}

/// What of the strip is still to be looked at.
struct Rest<'s> {
    strip: &'s [u8],
    at: usize,
}

impl<'s> Rest<'s> {
    /// The next unit: its elements must fit the test, which gives what the unit stands for.
    fn unit<T>(&mut self, length: usize, fits: impl Fn(&[u8]) -> Option<T>) -> Result<T, Refused> {
        let start = self.at;
        self.at += length;
        fits(&self.strip[start..self.at]).ok_or((10, start))
    }

    fn exactly(&mut self, code: &str) -> Result<(), Refused> {
        self.unit(code.len(), |widths| if is(code, widths) { Some(()) } else { None })
    }

    fn narrow_space(&mut self) -> Result<(), Refused> {
        self.exactly("0")
    }

    fn one_of(&mut self, length: usize, table: &[(u8, &str)]) -> Result<u8, Refused> {
        self.unit(length, |widths| find(table, widths.iter().copied()))
    }

    /// A digit of EAN or UPC from one of these sets, and the set.
    fn digit(&mut self, sets: &[usize]) -> Result<(u8, usize), Refused> {
        self.unit(4, |widths| {
            for (digit, patterns) in EAN {
                for &set in sets {
                    if runs(patterns[set]) == widths {
                        return Some((digit, set));
                    }
                }
            }
            None
        })
    }
}

/// Whether the widths are those of a two-width code.
fn is(code: &str, widths: &[u8]) -> bool {
    code.len() == widths.len() && code.bytes().zip(widths).all(|(bit, &w)| w == width(bit))
}

fn find(table: &[(u8, &str)], widths: impl Iterator<Item = u8> + Clone) -> Option<u8> {
    table.iter().find(|(_, code)| code.bytes().map(width).eq(widths.clone())).map(|(c, _)| *c)
}

/// The drawn characters of a strip, or the first of refusals 1, 2, 9, 10 and 11 that applies.
pub fn seen(symbology: u8, mode: u8, strip: &[u8]) -> Result<Vec<u8>, Refused> {
    data_limits(symbology, mode)?;
    let n = (1..=34).find(|&n| can_give(symbology, mode, n) && elements(symbology, n) == strip.len()).ok_or((9, 0))?;
    let mut drawn = Vec::with_capacity(n);
    let mut rest = Rest { strip, at: 0 };
    match symbology {
        1 | 2 => {
            rest.exactly(STAR)?;
            rest.narrow_space()?;
            for _ in 0..n {
                drawn.push(rest.one_of(9, &CODE39)?);
                rest.narrow_space()?;
            }
            rest.exactly(STAR)?;
        }
        3 => {
            drawn.push(rest.one_of(7, &CODABAR_ENDS)?);
            rest.narrow_space()?;
            for _ in 1..n - 1 {
                drawn.push(rest.one_of(7, &CODABAR_INNER)?);
                rest.narrow_space()?;
            }
            drawn.push(rest.one_of(7, &CODABAR_ENDS)?);
        }
        4 => {
            rest.exactly(&bars_only(INDUSTRIAL_START))?;
            rest.narrow_space()?;
            for _ in 0..n {
                drawn.push(rest.unit(9, |widths| {
                    if widths.iter().skip(1).step_by(2).any(|&space| space != 1) {
                        return None;
                    }
                    find(&TWO_OF_FIVE, widths.iter().copied().step_by(2))
                })?);
                rest.narrow_space()?;
            }
            rest.exactly(&bars_only(INDUSTRIAL_STOP))?;
        }
        5 => {
            rest.exactly(INTERLEAVED_START)?;
            for _ in 0..n / 2 {
                let (first, second) = rest.unit(10, |widths| {
                    let bars = find(&TWO_OF_FIVE, widths.iter().copied().step_by(2))?;
                    let spaces = find(&TWO_OF_FIVE, widths.iter().copied().skip(1).step_by(2))?;
                    Some((bars, spaces))
                })?;
                drawn.extend([first, second]);
            }
            rest.exactly(INTERLEAVED_STOP)?;
        }
        6 => {
            rest.exactly(MATRIX_END)?;
            rest.narrow_space()?;
            for _ in 0..n {
                drawn.push(rest.one_of(5, &TWO_OF_FIVE)?);
                rest.narrow_space()?;
            }
            rest.exactly(MATRIX_END)?;
        }
        _ => {
            let (left, right, sets): (usize, usize, &[usize]) = match symbology {
                7 => (6, 6, &[0, 1]),
                8 => (4, 4, &[0]),
                _ => (6, 6, &[0]),
            };
            let mut parities = String::new();
            rest.exactly("000")?;
            for _ in 0..left {
                let (digit, set) = rest.digit(sets)?;
                drawn.push(digit);
                parities.push(if set == 0 { 'O' } else { 'E' });
            }
            rest.exactly("00000")?;
            for _ in 0..right {
                drawn.push(rest.digit(&[2])?.0);
            }
            rest.exactly("000")?;
            if symbology == 7 {
                let first = PARITIES.iter().position(|p| *p == parities).ok_or((11, 3))?;
                drawn.insert(0, b'0' + first as u8);
            }
        }
    }
    Ok(drawn)
}

// Drawn characters to data.

/// The data of drawn characters, or refusal 12 or 7.
pub fn meant(symbology: u8, mode: u8, drawn: &[u8]) -> Result<Vec<u8>, Refused> {
    let head = if mode == 0 { drawn } else { &drawn[..drawn.len() - 1] };
    let mut data = if symbology == 2 { contracted(head)? } else { head.to_vec() };
    if mode != 0 {
        let last = drawn[head.len()];
        if last != check(symbology, head) {
            return Err((7, head.len()));
        }
        if mode == 1 {
            data.push(last);
        }
    }
    Ok(data)
}

/// The bytes whose drawing codes stand here one behind the other, or refusal 12.
fn contracted(drawn: &[u8]) -> Result<Vec<u8>, Refused> {
    let mut data = Vec::new();
    let mut at = 0;
    while at < drawn.len() {
        // No drawing code begins another, so at most one byte fits.
        let byte = (0x20..=0x7f)
            .find(|&byte| drawn[at..].starts_with(drawing_code(byte).expect("a byte of the table")))
            .ok_or((12, at))?;
        at += drawing_code(byte).expect("a byte of the table").len();
        data.push(byte);
    }
    Ok(data)
}
