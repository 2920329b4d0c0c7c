//! The library against a second implementation of document 01: answers and all bytes of the buffers must be the same.

mod bench;
mod second;

use bench::{allowed, counts, good_data, Call, Random, Tally, AMPLE, LONG, OFFERED};
use std::collections::{BTreeSet, HashMap};

/// Calls `with` for every row of `length` bytes out of `from`.
fn every(from: &[u8], length: usize, mut with: impl FnMut(&[u8])) {
    let mut at = vec![0; length];
    let mut row = vec![from[0]; length];
    'rows: loop {
        with(&row);
        for i in 0..length {
            at[i] += 1;
            if at[i] < from.len() {
                row[i] = from[at[i]];
                continue 'rows;
            }
            at[i] = 0;
            row[i] = from[0];
        }
        return;
    }
}

fn bytes(text: &str) -> Vec<u8> {
    text.bytes().filter(|b| *b != b' ').map(|b| b - b'0').collect()
}

/// What document 01, ticket 1 of document 02 and source 001 print: both implementations must give just this.
#[test]
fn published() {
    let mut tally = Tally::new("published");
    let strips: [(u8, u8, &str, &str, u64); 4] = [
        (5, 0, "17", "11113111111333311", 27),
        (3, 0, "A5B", "1133131 1 3111131 1 1313113", 39),
        (6, 0, "4", "31111 1 11313 1 31111", 25),
        (4, 0, "0", "31311 1 111131311 1 31113", 33),
    ];
    for (symbology, mode, data, widths, modules) in strips {
        assert_eq!(tally.draw(symbology, mode, data.as_bytes(), AMPLE).total, modules);
        assert_eq!(tally.strip(symbology, mode, data.as_bytes()), Ok(bytes(widths)));
        assert_eq!(tally.data(symbology, mode, &bytes(widths)), Ok(data.as_bytes().to_vec()));
    }
    // Data in mode 2, and the same strip's data in mode 1. Full ASCII's drawn characters are those of Code 39.
    let checks: [(u8, &str, u8, &str); 17] = [
        (5, "417", 5, "4176"),
        (5, "00417", 5, "004176"),
        (4, "0123456789", 4, "01234567895"),
        (4, "10417", 4, "104173"),
        (7, "107622135746", 7, "1076221357468"),
        (8, "1076221", 8, "10762219"),
        (7, "000000000000", 7, "0000000000000"),
        (9, "00000000417", 9, "000000004176"),
        (1, "W00417", 1, "W004171"),
        (1, "Z8", 1, "Z80"),
        (2, "a1", 1, "+A19"),
        (7, "123456789012", 7, "1234567890128"),
        (6, "0123456789", 6, "01234567895"),
        // Figure 4.4, and EAN-8's figure 5.8 in the 2 of 5 codes: odd numbers of digits, weighed from the right.
        (5, "012345678", 5, "0123456784"),
        (4, "1076221", 4, "10762219"),
        (5, "1076221", 5, "10762219"),
        (6, "1076221", 6, "10762219"),
    ];
    for (symbology, data, other, checked) in checks {
        let strip = tally.strip(symbology, 2, data.as_bytes()).expect("drawn");
        assert_eq!(tally.strip(other, 1, checked.as_bytes()), Ok(strip.clone()), "{data}");
        assert_eq!(tally.data(symbology, 2, &strip), Ok(data.as_bytes().to_vec()));
        assert_eq!(tally.data(other, 1, &strip), Ok(checked.as_bytes().to_vec()));
    }
    let refused: [(u8, u8, &str, u64, u64); 18] = [
        (5, 0, "417", 5, 0),
        (2, 0, "abcdefghijklmnopq", 6, 0),
        (2, 1, "abcdefghijklmnopA", 6, 0),
        (2, 2, "abcdefghijklmnop", 6, 0),
        (1, 0, "", 3, 0),
        (1, 0, "012345678901234567890123456789012", 3, 0),
        (3, 0, "AAB", 4, 1),
        (3, 0, "5AB", 4, 0),
        (3, 0, "A5T", 4, 2),
        (3, 0, "a5B", 4, 0),
        (3, 1, "A5B", 2, 0),
        (7, 0, "1076221357468", 2, 0),
        (2, 1, "a1a", 4, 2),
        (2, 1, "a1A", 7, 3),
        (1, 0, "W*7", 4, 1),
        (8, 1, "10762210", 7, 7),
        // By the rule of source 001, 4.6, which counts from the left, these would be right.
        (5, 1, "0123456782", 7, 9),
        (4, 1, "104175", 7, 5),
    ];
    for (symbology, mode, data, number, place) in refused {
        assert_eq!(tally.strip(symbology, mode, data.as_bytes()), Err((number, place)), "{data}");
    }
    assert!(tally.strip(2, 0, b"abcdefghijklmnop").is_ok());
    assert!(tally.strip(1, 0, b"01234567890123456789012345678901").is_ok());
    assert_eq!(tally.draw(5, 0, b"17", 16).place, 17);
    // Rows that are no expansion, by document 01 and its pairs.
    let rows: [(u8, &str, u64, u64); 14] = [
        (0, "/M", 12, 0),
        (0, "A/N", 12, 1),
        (0, "A$", 12, 1),
        (0, "$A", 12, 0),
        (0, "%U", 12, 0),
        (0, "%A", 12, 0),
        (0, "%E", 12, 0),
        (0, "%X", 12, 0),
        (0, "/-", 12, 0),
        (0, "+1", 12, 0),
        (0, "+A+", 12, 2),
        (1, "/A", 12, 0),
        (2, "A/Z", 12, 1),
        (2, "+A1A", 7, 3),
    ];
    for (mode, row, number, place) in rows {
        let strip = second::lay_out(2, row.as_bytes());
        assert_eq!(tally.data(2, mode, &strip), Err((number, place)), "{row}");
    }
    tally.done(97);
}

/// The second implementation's tables by document 01's own rules.
#[test]
fn tables() {
    use second::tables::*;
    let mut cases = 0;
    // Three wide elements in each of the 44 codes.
    for code in CODE39.iter().map(|(_, code)| *code).chain([STAR]) {
        assert_eq!((code.len(), code.matches('1').count()), (9, 3), "{code}");
        cases += 1;
    }
    assert_eq!(CODE39.iter().map(|(c, _)| c).collect::<BTreeSet<_>>(), VALUES.iter().collect());
    for (_, code) in TWO_OF_FIVE {
        assert_eq!((code.len(), code.matches('1').count()), (5, 2), "{code}");
        cases += 1;
    }
    // Twelve modules for a digit, - and $, fourteen for the others, with the space behind.
    for (c, code) in CODABAR_INNER.iter().chain(&CODABAR_ENDS) {
        let wide = if c.is_ascii_digit() || *c == b'-' || *c == b'$' { 2 } else { 3 };
        assert_eq!((code.len(), code.matches('1').count()), (7, wide), "{code}");
        cases += 1;
    }
    // Right is left odd with bar and space exchanged; left even is right from its other end.
    for (_, [odd, even, right]) in EAN {
        assert!(odd.chars().zip(right.chars()).all(|(a, b)| a != b), "{odd} {right}");
        assert!(even.chars().eq(right.chars().rev()), "{even} {right}");
        cases += 1;
    }
    // Full ASCII by document 01's ranges.
    for byte in 0..=255u8 {
        let pair = |shift: u8, base: u8, first: u8| Some(vec![shift, base + (byte - first)]);
        let by_range = match byte {
            b' ' | b'0'..=b'9' | b'A'..=b'Z' | b'-' | b'.' => Some(vec![byte]),
            0x21..=0x2c => pair(b'/', b'A', 0x21),
            0x2f => pair(b'/', b'O', 0x2f),
            0x3a => pair(b'/', b'Z', 0x3a),
            0x3b..=0x3f => pair(b'%', b'F', 0x3b),
            0x40 => pair(b'%', b'V', 0x40),
            0x5b..=0x5f => pair(b'%', b'K', 0x5b),
            0x60 => pair(b'%', b'W', 0x60),
            0x61..=0x7a => pair(b'+', b'A', 0x61),
            0x7b..=0x7f => pair(b'%', b'P', 0x7b),
            _ => None,
        };
        assert_eq!(second::drawing_code(byte).map(<[u8]>::to_vec), by_range, "{byte}");
        cases += 1;
    }
    println!("cases: tables {cases}");
    assert_eq!(cases, 44 + 10 + 20 + 10 + 256);
}

/// Every number for symbology and every number for mode.
#[test]
fn numbers_and_modes() {
    let mut tally = Tally::new("numbers_and_modes");
    let data: [&[u8]; 6] = [b"", b"4", b"17", b"A5B", b"10762219", b"1076221357468"];
    let strips: Vec<Vec<u8>> = vec![
        vec![],
        vec![1],
        second::lay_out(5, b"17"),
        second::lay_out(3, b"A5B"),
        second::lay_out(8, b"10762219"),
        second::lay_out(7, b"1076221357468"),
    ];
    for symbology in 0..=255 {
        for mode in 0..=255 {
            for text in data {
                tally.draw(symbology, mode, text, AMPLE);
            }
            for strip in &strips {
                tally.read(symbology, mode, strip, AMPLE);
            }
        }
    }
    tally.done(786_432);
}

/// The numbers that document 01 lets a call give.
fn numbers(call: Call, symbology: u8, mode: u8) -> BTreeSet<u64> {
    if !(1..=9).contains(&symbology) {
        return BTreeSet::from([1]);
    }
    if !OFFERED.contains(&(symbology, mode)) {
        return BTreeSet::from([2]);
    }
    let mut numbers = match call {
        Call::Draw => BTreeSet::from([0, 3, 4, 8]),
        Call::Read => BTreeSet::from([0, 8, 9, 10]),
    };
    numbers.extend(match (call, symbology) {
        (Call::Draw, 5) => Some(5),
        (Call::Draw, 2) => Some(6),
        (Call::Read, 7) => Some(11),
        (Call::Read, 2) => Some(12),
        _ => None,
    });
    if mode == 1 || mode == 2 && call == Call::Read {
        numbers.insert(7);
    }
    numbers
}

/// Each call gives, for each symbology and mode, every number that document 01 lets it give and no other.
#[test]
fn every_number() {
    let mut tally = Tally::new("every_number");
    let mut random = Random::new("every_number");
    for symbology in [0, 1, 2, 3, 4, 5, 6, 7, 8, 9, 10, 255] {
        for mode in [0, 1, 2, 3, 255] {
            for _ in 0..4000 {
                // A request and a strip that are good for some symbology and mode, then spoiled or not.
                let (as_symbology, as_mode) = if OFFERED.contains(&(symbology, mode)) && random.below(8) > 0 {
                    (symbology, mode)
                } else {
                    OFFERED[random.below(OFFERED.len())]
                };
                let count = random.from(0, 34);
                let mut data = good_data(&mut random, as_symbology, as_mode, count);
                let drawn = second::characters(as_symbology, as_mode, &data).expect("good data");
                let mut strip = second::lay_out(as_symbology, &drawn);
                let n = drawn.len();
                match random.below(8) {
                    0 => data.push(b'0'),
                    1 => drop(data.pop()),
                    2 => {
                        let at = random.below(data.len());
                        data[at] = random.bytes(1)[0];
                    }
                    3 => data = (0..random.from(1, 32)).map(|_| random.one_of(b"abc123ABC$/+%")).collect(),
                    4 => data = (0..data.len()).map(|_| random.one_of(b"0123456789")).collect(),
                    _ => {}
                }
                match random.below(8) {
                    0 => strip.push(1),
                    1 => drop(strip.pop()),
                    2 => {
                        let at = random.below(strip.len());
                        strip[at] = random.from(0, 5) as u8;
                    }
                    3 => {
                        let row: Vec<u8> = (0..n).map(|i| random.one_of(allowed(as_symbology, i, n))).collect();
                        strip = second::lay_out(as_symbology, &row);
                    }
                    4 if as_symbology == 7 => {
                        // One left digit from the other set: its widths there are these from the other end.
                        let at = 3 + 4 * random.below(6);
                        strip[at..at + 4].reverse();
                    }
                    _ => {}
                }
                let room = if random.below(3) == 0 { random.below(60) } else { AMPLE };
                let answer = tally.draw(symbology, mode, &data, room);
                tally.note(Call::Draw, symbology, mode, answer);
                let room = if random.below(3) == 0 { random.below(14) } else { AMPLE };
                let answer = tally.read(symbology, mode, &strip, room);
                tally.note(Call::Read, symbology, mode, answer);
            }
            for call in [Call::Draw, Call::Read] {
                let seen = &tally.seen[&(call, symbology, mode)];
                assert_eq!(seen, &numbers(call, symbology, mode), "{call:?} {symbology} {mode}");
            }
        }
    }
    tally.done(480_000);
}

/// All data of up to two bytes, and many of three, Codabar's least.
#[test]
fn small_data() {
    let mut tally = Tally::new("small_data");
    let all: Vec<u8> = (0..=255).collect();
    for symbology in 1..=9 {
        for mode in 0..=2 {
            for length in 0..=2 {
                every(&all, length, |data| {
                    tally.draw(symbology, mode, data, AMPLE);
                });
            }
        }
    }
    // Three bytes, each out of all that any symbology treats apart, and some that none allows.
    let some = b"\0\x1f !$%*+,-./059:;<?@ADEFLMOPTVWZ[_`atz{~\x7f\x80\xb0\xff";
    for (symbology, mode) in OFFERED {
        every(some, 3, |data| {
            tally.draw(symbology, mode, data, AMPLE);
        });
    }
    every(&all, 2, |ends| {
        for inner in [b'0', b':', b'A'] {
            tally.draw(3, 0, &[ends[0], inner, ends[1]], AMPLE);
        }
    });
    tally.done(3_840_000);
}

/// Every byte at every place of data that are drawn.
#[test]
fn every_byte() {
    let mut tally = Tally::new("every_byte");
    let mut random = Random::new("every_byte");
    for (symbology, mode) in OFFERED {
        for count in counts(symbology, mode) {
            let good = good_data(&mut random, symbology, mode, count);
            for place in 0..good.len() {
                for byte in 0..=255 {
                    let mut data = good.clone();
                    data[place] = byte;
                    if let Ok(strip) = tally.strip(symbology, mode, &data) {
                        assert_eq!(tally.data(symbology, mode, &strip), Ok(data));
                    }
                }
            }
        }
    }
    tally.done(390_000);
}

/// All rows of few characters, read in every mode: in full ASCII the expansions and what is none.
#[test]
fn small_rows() {
    let mut tally = Tally::new("small_rows");
    for symbology in [1, 2] {
        for n in 1..=3 {
            every(second::tables::VALUES, n, |row| {
                let strip = second::lay_out(symbology, row);
                for mode in 0..=2 {
                    tally.read(symbology, mode, &strip, AMPLE);
                }
            });
        }
    }
    // Full ASCII with the right check: an expansion before it or none, 0 or 12.
    for n in 1..=3 {
        every(second::tables::VALUES, n, |head| {
            let row = [head, &[second::check(2, head)]].concat();
            let strip = second::lay_out(2, &row);
            for mode in 1..=2 {
                assert!([0, 12].contains(&tally.read(2, mode, &strip, AMPLE).number));
            }
        });
    }
    for symbology in [4, 5, 6] {
        for n in 1..=4 {
            if symbology == 5 && n % 2 == 1 {
                continue;
            }
            every(b"0123456789", n, |row| {
                let strip = second::lay_out(symbology, row);
                for mode in 0..=2 {
                    tally.read(symbology, mode, &strip, AMPLE);
                }
            });
        }
    }
    for n in 1..=3 {
        every(b"0123456789-$:/.+", n, |inner| {
            for ends in [b"AB", b"CD", b"DA", b"BC", b"AA"] {
                let row = [&ends[..1], inner, &ends[1..]].concat();
                let strip = second::lay_out(3, &row);
                assert_eq!(tally.data(3, 0, &strip), Ok(row));
            }
        });
    }
    // EAN-8: every hundredth of the seven-digit numbers, with every check.
    for number in (0..10_000_000u32).step_by(101) {
        for check in 0..=9 {
            let row = format!("{number:07}{check}").into_bytes();
            tally.read(8, 1, &second::lay_out(8, &row), AMPLE);
        }
    }
    tally.done(1_760_000);
}

/// All short strips over five widths; all narrow and wide ones of the least lengths.
#[test]
fn small_strips() {
    let mut tally = Tally::new("small_strips");
    for length in 0..=7 {
        every(&[0, 1, 2, 3, 4], length, |strip| {
            for symbology in 1..=9 {
                for mode in 0..=2 {
                    tally.read(symbology, mode, strip, AMPLE);
                }
            }
        });
    }
    // Every length, with nothing in it: 9 or 10.
    for symbology in 0..=10 {
        for mode in 0..=3 {
            for length in 0..=LONG {
                tally.read(symbology, mode, &vec![1; length], AMPLE);
            }
        }
    }
    for (symbology, least) in [(5, 17), (6, 17), (4, 21)] {
        every(&[1, 3], least, |strip| {
            tally.read(symbology, 0, strip, AMPLE);
        });
    }
    for mode in 1..=2 {
        every(&[1, 3], 17, |strip| {
            tally.read(5, mode, strip, AMPLE);
        });
    }
    tally.done(5_270_000);
}

/// Codabar's least strips, narrow and wide: all of them.
#[test]
fn small_codabar() {
    let mut tally = Tally::new("small_codabar");
    let mut done = 0;
    every(&[1, 3], 23, |strip| done += u64::from(tally.read(3, 0, strip, AMPLE).number == 0));
    // Four letters, sixteen inner characters, four letters, and no strip more.
    assert_eq!(done, 4 * 16 * 4);
    tally.done(1 << 23);
}

/// Every unit of drawn strips replaced by everything that could stand there.
#[test]
fn units() {
    let mut tally = Tally::new("units");
    let mut random = Random::new("units");
    for (symbology, mode) in OFFERED {
        for count in [0, 3] {
            let data = good_data(&mut random, symbology, mode, count);
            let drawn = second::characters(symbology, mode, &data).expect("good data");
            let strip = second::lay_out(symbology, &drawn);
            let lengths = second::units(symbology, drawn.len());
            assert_eq!(lengths.iter().sum::<usize>(), strip.len());
            let mut starts = BTreeSet::new();
            let mut at = 0;
            for &length in &lengths {
                starts.insert(at as u64);
                at += length;
            }
            at = 0;
            for length in lengths {
                let widths: &[u8] = match length {
                    0..=4 => &[0, 1, 2, 3, 4, 5, 255],
                    5 => &[0, 1, 2, 3, 4],
                    7 => &[0, 1, 2, 3],
                    _ => &[1, 2, 3],
                };
                let mut other = strip.clone();
                every(widths, length, |unit| {
                    other[at..at + length].copy_from_slice(unit);
                    let answer = tally.read(symbology, mode, &other, AMPLE);
                    assert!(answer.number != 10 || starts.contains(&answer.place));
                });
                at += length;
            }
        }
    }
    tally.done(2_400_000);
}

/// Drawn strips with one element changed, which must all be refused, and other damage.
#[test]
fn damage() {
    let mut tally = Tally::new("damage");
    let mut random = Random::new("damage");
    const WIDTHS: [u8; 7] = [0, 1, 2, 3, 4, 5, 255];
    for (symbology, mode) in OFFERED {
        for count in counts(symbology, mode) {
            let data = good_data(&mut random, symbology, mode, count);
            let strip = tally.strip(symbology, mode, &data).expect("good data");
            for at in 0..strip.len() {
                for width in WIDTHS {
                    let mut other = strip.clone();
                    other[at] = width;
                    let number = tally.read(symbology, mode, &other, AMPLE).number;
                    assert_eq!(number == 0, width == strip[at], "one width changed is refused");
                }
                // An element lost, an element twice, two neighbours exchanged, the tail cut off.
                let mut other = strip.clone();
                other.remove(at);
                tally.read(symbology, mode, &other, AMPLE);
                other = strip.clone();
                other.insert(at, strip[at]);
                tally.read(symbology, mode, &other, AMPLE);
                other = strip.clone();
                other.swap(at, (at + 1) % strip.len());
                tally.read(symbology, mode, &other, AMPLE);
                tally.read(symbology, mode, &strip[..at], AMPLE);
                tally.read(symbology, mode, &strip[at..], AMPLE);
            }
            for width in WIDTHS {
                let longer = [&strip[..], &[width][..]].concat();
                tally.read(symbology, mode, &longer, AMPLE);
                let longer = [&[width][..], &strip[..]].concat();
                tally.read(symbology, mode, &longer, AMPLE);
            }
            for _ in 0..500 {
                let mut other = strip.clone();
                for _ in 0..2 {
                    let at = random.below(strip.len());
                    other[at] = random.one_of(&WIDTHS[..5]);
                }
                tally.read(symbology, mode, &other, AMPLE);
            }
            // The other narrow and wide, from the other end, twice as large, as another symbology.
            let turned: Vec<u8> = strip.iter().rev().copied().collect();
            tally.read(symbology, mode, &turned, AMPLE);
            let doubled: Vec<u8> = strip.iter().map(|w| w * 2).collect();
            tally.read(symbology, mode, &doubled, AMPLE);
            let flipped: Vec<u8> = strip.iter().map(|w| 4 - w.min(&4)).collect();
            tally.read(symbology, mode, &flipped, AMPLE);
            for other in 1..=9 {
                for other_mode in 0..=2 {
                    tally.read(other, other_mode, &strip, AMPLE);
                }
            }
        }
    }
    tally.done(210_000);
}

/// The least strips of each symbology and mode, and so EAN's and UPC's, with any two elements changed.
#[test]
fn double_damage() {
    let mut tally = Tally::new("double_damage");
    let mut random = Random::new("double_damage");
    for (symbology, mode) in OFFERED {
        for _ in 0..3 {
            let data = good_data(&mut random, symbology, mode, 0);
            let strip = tally.strip(symbology, mode, &data).expect("good data");
            for first in 0..strip.len() {
                for second in 0..first {
                    for widths in 0..25 {
                        let mut other = strip.clone();
                        other[first] = widths / 5;
                        other[second] = widths % 5;
                        tally.read(symbology, mode, &other, AMPLE);
                    }
                }
            }
        }
    }
    tally.done(1_050_000);
}

/// EAN-13: every choice of sets for the left digits.
#[test]
fn parities() {
    let mut tally = Tally::new("parities");
    let mut random = Random::new("parities");
    for _ in 0..1000 {
        let data = good_data(&mut random, 7, 2, 0);
        let strip = tally.strip(7, 2, &data).expect("good data");
        let mut read = 0;
        for sets in 0..64 {
            let mut other = strip.clone();
            for digit in 0..6 {
                if sets >> digit & 1 == 1 {
                    other[3 + 4 * digit..7 + 4 * digit].reverse();
                }
            }
            for mode in 1..=2 {
                let answer = tally.read(7, mode, &other, AMPLE);
                assert!([0, 7, 11].contains(&answer.number));
                assert!(answer.number != 11 || answer.place == 3);
                read += u32::from(answer.number == 0);
            }
        }
        assert_eq!(read, 2, "one first digit fits the check");
    }
    tally.done(129_000);
}

/// Buffers exact, one short, long and empty, between guard bytes; the input stands between other bytes and stays.
#[test]
fn rooms() {
    let mut tally = Tally::new("rooms");
    let mut random = Random::new("rooms");
    for (symbology, mode) in OFFERED {
        for count in 0..=34 {
            let data = good_data(&mut random, symbology, mode, count);
            let strip = tally.strip(symbology, mode, &data).expect("good data");
            let (elements, length) = (strip.len(), data.len());
            for room in [0, 1, elements / 2, elements - 1, elements, elements + 1, 339, LONG] {
                let answer = tally.draw(symbology, mode, &data, room);
                assert_eq!(answer.number, if room < elements { 8 } else { 0 });
                assert_eq!(answer.place, if room < elements { elements as u64 } else { 0 });
            }
            for room in [0, 1, length / 2, length - 1, length, length + 1, 34, 339] {
                let answer = tally.read(symbology, mode, &strip, room);
                assert_eq!(answer.number, if room < length { 8 } else { 0 });
                assert_eq!(answer.place, if room < length { length as u64 } else { 0 });
            }
            for around in [0, 1, 3, b'0', b'A', 255] {
                let mut all = vec![around; 8];
                all.extend(&data);
                all.extend([around; 8]);
                let kept = all.clone();
                let answer = tally.draw(symbology, mode, &all[8..8 + length], elements);
                assert_eq!((answer.number, &all), (0, &kept));
                let mut all = vec![around; 8];
                all.extend(&strip);
                all.extend([around; 8]);
                let kept = all.clone();
                let answer = tally.read(symbology, mode, &all[8..8 + elements], length);
                assert_eq!((answer.number, &all), (0, &kept));
            }
        }
    }
    // A refusal other than 8 does not depend on the room.
    for room in [0, 1, 34, LONG] {
        for (symbology, mode) in OFFERED {
            assert_eq!(tally.draw(symbology, mode, b"", room).number, 3);
            assert_eq!(tally.draw(symbology, mode, &[0; 40], room).number, 3);
            assert_eq!(tally.read(symbology, mode, b"", room).number, 9);
            assert_eq!(tally.read(symbology, mode, &[0; LONG], room).number, 9);
        }
    }
    tally.done(22_000);
}

/// Counts that a byte or two bytes can't hold: of data, of elements and of rooms.
#[test]
fn large() {
    let mut tally = Tally::new("large");
    let mut random = Random::new("large");
    let narrow = vec![1; 3 * 65_536];
    let digits = vec![b'0'; 3 * 65_536];
    for (symbology, mode) in OFFERED {
        for count in counts(symbology, mode) {
            let data = good_data(&mut random, symbology, mode, count);
            let strip = tally.strip(symbology, mode, &data).expect("good data");
            for more in [256, 512, 65_536, 2 * 65_536] {
                assert_eq!(tally.draw(symbology, mode, &digits[..data.len() + more], AMPLE).number, 3);
                let longer = [&data[..], &digits[..more]].concat();
                assert_eq!(tally.draw(symbology, mode, &longer, AMPLE).number, 3);
                assert_eq!(tally.read(symbology, mode, &narrow[..strip.len() + more], AMPLE).number, 9);
                let longer = [&strip[..], &narrow[..more]].concat();
                assert_eq!(tally.read(symbology, mode, &longer, AMPLE).number, 9);
                let mut room = vec![200; more];
                let answer = strip::raw::draw(symbology, mode, &data, &mut room);
                if more >= strip.len() {
                    assert_eq!((answer.number, answer.count), (0, strip.len() as u64));
                    assert_eq!(room[..strip.len()], strip);
                    assert!(room[strip.len()..].iter().all(|&byte| byte == 200));
                } else {
                    assert_eq!((answer.number, answer.place), (8, strip.len() as u64));
                }
                let mut room = vec![200; more];
                let answer = strip::raw::read(symbology, mode, &strip, &mut room);
                assert_eq!((answer.number, answer.count), (0, data.len() as u64));
                assert_eq!(room[..data.len()], data);
                assert!(room[data.len()..].iter().all(|&byte| byte == 200));
            }
        }
    }
    tally.done(1_734);
}

/// What is drawn is read back, with document 01's elements and modules; other data, another strip.
#[test]
fn round_trip() {
    let mut tally = Tally::new("round_trip");
    let mut random = Random::new("round_trip");
    for (symbology, mode) in OFFERED {
        let mut known: HashMap<Vec<u8>, Vec<u8>> = HashMap::new();
        for round in 0..6000 {
            let mut data = good_data(&mut random, symbology, mode, round % 36);
            if round % 3 == 0 {
                // Zeros in front are data.
                let zeros = random.below(data.len());
                for byte in data.iter_mut().take(zeros).filter(|b| b.is_ascii_digit()) {
                    *byte = b'0';
                }
            }
            let answer = tally.draw(symbology, mode, &data, AMPLE);
            let strip = match tally.strip(symbology, mode, &data) {
                Ok(strip) => strip,
                Err((number, _)) => {
                    // The zeros put mode 1's check wrong.
                    assert_eq!((mode, number), (1, 7));
                    continue;
                }
            };
            let drawn = second::characters(symbology, mode, &data).expect("drawn");
            let n = drawn.len() as u64;
            let codabar = |c: &u8| if c.is_ascii_digit() || *c == b'-' || *c == b'$' { 12 } else { 14 };
            let modules = match symbology {
                1 | 2 => 16 * (n + 2) - 1,
                3 => drawn.iter().map(codabar).sum::<u64>() - 1,
                4 => 14 * n + 19,
                5 => 9 * n + 9,
                6 => 10 * n + 15,
                8 => 67,
                _ => 95,
            };
            assert_eq!(answer.total, modules);
            assert_eq!(answer.total, strip.iter().map(|&w| u64::from(w)).sum::<u64>());
            assert_eq!(answer.count, second::elements(symbology, drawn.len()) as u64);
            let back = tally.read(symbology, mode, &strip, AMPLE);
            assert_eq!((back.count, back.total), (data.len() as u64, modules));
            assert_eq!(tally.data(symbology, mode, &strip), Ok(data.clone()));
            let first = known.entry(strip).or_insert_with(|| data.clone());
            assert_eq!(first, &data, "one strip for two data");
        }
    }
    tally.done(500_000);
}

/// One drawn character replaced by another of its set is refused wherever there is a check.
#[test]
fn replaced_character() {
    let mut tally = Tally::new("replaced_character");
    let mut random = Random::new("replaced_character");
    for (symbology, mode) in OFFERED {
        for count in counts(symbology, mode) {
            for _ in 0..3 {
                let data = good_data(&mut random, symbology, mode, count);
                let drawn = second::characters(symbology, mode, &data).expect("good data");
                for place in 0..drawn.len() {
                    for &c in allowed(symbology, place, drawn.len()) {
                        let mut row = drawn.clone();
                        row[place] = c;
                        let read = tally.data(symbology, mode, &second::lay_out(symbology, &row));
                        if row == drawn {
                            assert_eq!(read, Ok(data.clone()));
                        } else if mode == 0 {
                            assert_ne!(read, Ok(data.clone()));
                        } else {
                            let (number, _) = read.expect_err("a replaced character is refused");
                            assert!(number == 7 || number == 12 && symbology == 2);
                            if mode == 1 && symbology != 2 {
                                assert_eq!(tally.strip(symbology, 1, &row), Err((7, row.len() as u64 - 1)));
                            }
                        }
                    }
                }
            }
        }
    }
    tally.done(120_000);
}

/// Ticket 2 of document 02: whether the check passes with the neighbours x and y exchanged, y being the check or not.
fn passes_exchanged(symbology: u8, x: u8, y: u8, y_is_the_check: bool) -> bool {
    match symbology {
        4..=9 => x == y || x.abs_diff(y) == 5,
        _ => !y_is_the_check || x == y,
    }
}

/// What became of exchanged neighbours: equal and read, unequal and read, refused with 7, refused with 12.
type Fates = [u64; 4];

/// Exchanges each two neighbours of a row that is drawn, and holds what is read, and what is drawn of it, to ticket 2.
fn exchange(tally: &mut Tally, symbology: u8, mode: u8, drawn: &[u8], fates: &mut Fates) {
    let check = drawn.len() - 1;
    for place in 0..check {
        let (x, y) = (drawn[place], drawn[place + 1]);
        let mut row = drawn.to_vec();
        row.swap(place, place + 1);
        let strip = second::lay_out(symbology, &row);
        let read = tally.data(symbology, mode, &strip);
        let passes = passes_exchanged(symbology, x, y, place + 1 == check);
        // Outside full ASCII the data are the drawn characters, in mode 2 without the check.
        let data = if mode == 1 { &row[..] } else { &row[..check] };
        match read {
            Ok(read) => {
                assert!(passes, "{row:?}");
                assert!(symbology == 2 || read == data, "{row:?}");
                assert_eq!(tally.strip(symbology, mode, &read), Ok(strip));
                fates[usize::from(x != y)] += 1;
            }
            Err((7, at)) => {
                assert!(!passes && at == check as u64, "{row:?}");
                if mode == 1 && symbology != 2 {
                    assert_eq!(tally.strip(symbology, 1, data), Err((7, at)));
                } else if symbology != 2 {
                    // Typed without its check the number gets another one: nothing is caught.
                    assert_ne!(tally.strip(symbology, 2, data).expect("drawn"), strip);
                }
                fates[2] += 1;
            }
            // Full ASCII: what the check lets pass may still be no expansion, and that comes before the check.
            Err((number, at)) => {
                assert!((symbology, number) == (2, 12) && x != y && at < check as u64, "{row:?}");
                fates[3] += 1;
            }
        }
    }
}

/// Full ASCII as it is typed, with its check: two bytes before it exchanged have the same sum, and are drawn.
fn exchange_typed(tally: &mut Tally, data: &[u8]) {
    for place in 0..data.len() - 2 {
        let mut typed = data.to_vec();
        typed.swap(place, place + 1);
        assert!(tally.strip(2, 1, &typed).is_ok(), "{typed:?}");
    }
}

/// Two neighbouring drawn characters exchanged, wherever there is a check: in all short rows of symbologies 1, 2 and
/// 4 to 6, and at every count of each symbology.
#[test]
fn exchanged_neighbours() {
    let mut tally = Tally::new("exchanged_neighbours");
    let mut random = Random::new("exchanged_neighbours");
    for (symbology, mode) in OFFERED.into_iter().filter(|&(_, mode)| mode != 0) {
        let mut fates = Fates::default();
        let short = match symbology {
            1 | 2 => 1..=2,
            4..=6 => 1..=4,
            _ => 1..=0,
        };
        for n in short {
            every(allowed(symbology, 0, 1), n, |head| {
                let row = [head, &[second::check(symbology, head)]].concat();
                let whole = second::meant(symbology, mode, &row).is_ok();
                if whole && second::can_give(symbology, mode, row.len()) {
                    exchange(&mut tally, symbology, mode, &row, &mut fates);
                }
            });
        }
        let (least, most) = second::data_limits(symbology, mode).expect("offered");
        for count in least..=most {
            for _ in 0..if least == most { 2000 } else { 60 } {
                let data = good_data(&mut random, symbology, mode, count);
                let drawn = second::characters(symbology, mode, &data).expect("good data");
                exchange(&mut tally, symbology, mode, &drawn, &mut fates);
                if (symbology, mode) == (2, 1) {
                    exchange_typed(&mut tally, &data);
                }
            }
        }
        let kinds = if symbology == 2 { 4 } else { 3 };
        assert!(fates[..kinds].iter().all(|&count| count > 500), "{symbology} {mode} {fates:?}");
    }
    tally.done(1_240_000);
}

/// Long data and strips at random, good and bad.
#[test]
fn random_long() {
    let mut tally = Tally::new("random_long");
    let mut random = Random::new("random_long");
    for round in 0..600_000 {
        let (symbology, mode) = OFFERED[round % OFFERED.len()];
        let (least, most) = second::data_limits(symbology, mode).expect("offered");
        let room = if random.below(4) == 0 { random.below(LONG) } else { AMPLE };
        // Data: of the set, of the byte range, or any bytes; good ones with a byte replaced.
        let count = random.from(least.saturating_sub(1), most + 1);
        let data = match random.below(4) {
            0 => random.bytes(count),
            1 => (0..count).map(|_| random.from(0x20, 0x7f) as u8).collect(),
            2 => (0..count).map(|i| random.one_of(allowed(symbology, i, count))).collect(),
            _ => {
                let mut data = good_data(&mut random, symbology, mode, count);
                let at = random.below(data.len());
                data[at] = random.one_of(b"0123456789ABCDabcd$/+%*-. \0\x80");
                data
            }
        };
        tally.draw(symbology, mode, &data, room);
        // Strips: any bytes of a length that fits, narrow and wide, or a row of the set with up to three spoiled.
        let n = match symbology {
            7 => 13,
            8 => 8,
            9 => 12,
            3 => random.from(3, 34),
            5 => 2 * random.from(1, 16),
            _ => random.from(1 + usize::from(mode != 0), 32),
        };
        let length = second::elements(symbology, n);
        let strip = match random.below(6) {
            0 => random.bytes(length),
            1 => (0..length).map(|_| random.one_of(&[1, 3])).collect(),
            choice => {
                let row: Vec<u8> = if choice == 2 {
                    (0..n).map(|i| random.one_of(allowed(symbology, i, n))).collect()
                } else {
                    let data = good_data(&mut random, symbology, mode, n);
                    second::characters(symbology, mode, &data).expect("good data")
                };
                let mut strip = second::lay_out(symbology, &row);
                for _ in 0..random.below(4) {
                    let at = random.below(strip.len());
                    strip[at] = random.one_of(&[1, 1, 3, 3, 2, 4, 0]);
                }
                strip
            }
        };
        let room = if random.below(4) == 0 { random.below(36) } else { AMPLE };
        tally.read(symbology, mode, &strip, room);
    }
    tally.done(1_200_000);
}
