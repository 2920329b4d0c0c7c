//! Runs the library and the second implementation side by side, and counts.

use crate::second;
use std::collections::{BTreeMap, BTreeSet};
use strip::raw;

/// Bytes before and behind every lent buffer.
const GUARD: usize = 32;
/// The longest buffer lent.
pub const LONG: usize = 400;
/// More than any strip or any data need, and never the exact count.
pub const AMPLE: usize = 350;

/// What buffers hold before a call: no byte that a call writes, and neighbours differ.
const BEFORE: [u8; LONG + 2 * GUARD] = before();

const fn before() -> [u8; LONG + 2 * GUARD] {
    let mut bytes = [0; LONG + 2 * GUARD];
    let mut i = 0;
    while i < bytes.len() {
        bytes[i] = 0x80 | (i * 37 % 127) as u8;
        i += 1;
    }
    bytes
}

#[derive(Clone, Copy, PartialEq, Eq, PartialOrd, Ord, Debug)]
pub enum Call {
    Draw,
    Read,
}

/// One test's cases.
pub struct Tally {
    name: &'static str,
    cases: u64,
    numbers: [[u64; 14]; 2],
    /// Which numbers each call gave for symbology and mode.
    pub seen: BTreeMap<(Call, u8, u8), BTreeSet<u64>>,
}

impl Tally {
    pub fn new(name: &'static str) -> Tally {
        Tally { name, cases: 0, numbers: [[0; 14]; 2], seen: BTreeMap::new() }
    }

    /// Draws both ways into a buffer of this room; answers and all bytes, guards included, must be the same.
    pub fn draw(&mut self, symbology: u8, mode: u8, data: &[u8], room: usize) -> raw::Answer {
        self.both(Call::Draw, symbology, mode, data, room).0
    }

    /// Reads both ways likewise.
    pub fn read(&mut self, symbology: u8, mode: u8, strip: &[u8], room: usize) -> raw::Answer {
        self.both(Call::Read, symbology, mode, strip, room).0
    }

    /// Draws with ample room; the strip, or the refusal's number and place.
    pub fn strip(&mut self, symbology: u8, mode: u8, data: &[u8]) -> Result<Vec<u8>, (u64, u64)> {
        self.bytes(Call::Draw, symbology, mode, data)
    }

    /// Reads with ample room; the data, or the refusal's number and place.
    pub fn data(&mut self, symbology: u8, mode: u8, strip: &[u8]) -> Result<Vec<u8>, (u64, u64)> {
        self.bytes(Call::Read, symbology, mode, strip)
    }

    fn bytes(&mut self, call: Call, symbology: u8, mode: u8, text: &[u8]) -> Result<Vec<u8>, (u64, u64)> {
        let (answer, buffer) = self.both(call, symbology, mode, text, AMPLE);
        match answer.number {
            0 => Ok(buffer[GUARD..GUARD + answer.count as usize].to_vec()),
            number => Err((number, answer.place)),
        }
    }

    fn both(
        &mut self,
        call: Call,
        symbology: u8,
        mode: u8,
        text: &[u8],
        room: usize,
    ) -> (raw::Answer, [u8; LONG + 2 * GUARD]) {
        let (mut by_library, mut by_second) = (BEFORE, BEFORE);
        let lent = GUARD..GUARD + room;
        let (first, second) = match call {
            Call::Draw => (
                raw::draw(symbology, mode, text, &mut by_library[lent.clone()]),
                second::draw(symbology, mode, text, &mut by_second[lent]),
            ),
            Call::Read => (
                raw::read(symbology, mode, text, &mut by_library[lent.clone()]),
                second::read(symbology, mode, text, &mut by_second[lent]),
            ),
        };
        let library = [first.number, first.place, first.count, first.total];
        if library != second || by_library != by_second {
            panic!(
                "{call:?}, symbology {symbology}, mode {mode}, room {room}, input {text:?} ({:?})\n\
                 library: {library:?}, second: {second:?}\n\
                 library's buffer: {:?}\nsecond's buffer: {:?}\nguards {}",
                String::from_utf8_lossy(text),
                &by_library[GUARD..GUARD + room],
                &by_second[GUARD..GUARD + room],
                if by_library[..GUARD] == BEFORE[..GUARD] && by_library[GUARD + room..] == BEFORE[GUARD + room..] {
                    "whole"
                } else {
                    "OVERWRITTEN"
                },
            );
        }
        self.cases += 1;
        self.numbers[call as usize][first.number as usize] += 1;
        (first, by_library)
    }

    /// Notes a call's number for symbology and mode.
    pub fn note(&mut self, call: Call, symbology: u8, mode: u8, answer: raw::Answer) {
        self.seen.entry((call, symbology, mode)).or_default().insert(answer.number);
    }

    /// Prints the count, which .ci/rust adds up, and demands that it is not below the floor.
    pub fn done(self, floor: u64) {
        let mut line = format!("cases: {} {}", self.name, self.cases);
        for (call, numbers) in ["drawing", "reading"].iter().zip(self.numbers) {
            let seen: Vec<_> = numbers.iter().enumerate().filter(|(_, &count)| count > 0).collect();
            if !seen.is_empty() {
                line += &format!(" {call}");
            }
            for (number, count) in seen {
                line += &format!(" {number}:{count}");
            }
        }
        println!("{line}");
        assert!(self.cases >= floor, "{}: {} cases, fewer than {floor}", self.name, self.cases);
    }
}

/// A small generator of random numbers (splitmix64).
pub struct Random(u64);

impl Random {
    /// Begins with STRIP_SEED, or a fixed seed, and prints it. Each test has its own numbers.
    pub fn new(name: &str) -> Random {
        let seed = match std::env::var("STRIP_SEED") {
            Ok(text) => text.parse().expect("STRIP_SEED is a number"),
            Err(_) => 20_417,
        };
        println!("seed: {name} STRIP_SEED={seed}");
        let mut random = Random(seed);
        for byte in name.bytes() {
            random.0 = random.next() ^ u64::from(byte);
        }
        random
    }

    fn next(&mut self) -> u64 {
        self.0 = self.0.wrapping_add(0x9e37_79b9_7f4a_7c15);
        let mut z = self.0;
        z = (z ^ (z >> 30)).wrapping_mul(0xbf58_476d_1ce4_e5b9);
        z = (z ^ (z >> 27)).wrapping_mul(0x94d0_49bb_1331_11eb);
        z ^ (z >> 31)
    }

    /// A number below `end`.
    pub fn below(&mut self, end: usize) -> usize {
        (self.next() % end as u64) as usize
    }

    /// A number from `least` to `most`.
    pub fn from(&mut self, least: usize, most: usize) -> usize {
        least + self.below(most - least + 1)
    }

    pub fn one_of(&mut self, bytes: &[u8]) -> u8 {
        bytes[self.below(bytes.len())]
    }

    pub fn bytes(&mut self, count: usize) -> Vec<u8> {
        (0..count).map(|_| self.next() as u8).collect()
    }
}

/// Symbologies with the modes that they offer.
#[rustfmt::skip]
pub const OFFERED: [(u8, u8); 22] = [
    (1, 0), (1, 1), (1, 2),
    (2, 0), (2, 1), (2, 2),
    (3, 0),
    (4, 0), (4, 1), (4, 2),
    (5, 0), (5, 1), (5, 2),
    (6, 0), (6, 1), (6, 2),
    (7, 1), (7, 2),
    (8, 1), (8, 2),
    (9, 1), (9, 2),
];

/// The allowed set of a drawn character at a place among n.
pub fn allowed(symbology: u8, place: usize, n: usize) -> &'static [u8] {
    match symbology {
        1 | 2 => second::tables::VALUES,
        3 if place == 0 || place == n - 1 => b"ABCD",
        3 => b"0123456789-$:/.+",
        _ => b"0123456789",
    }
}

/// Data that are drawn: `count` bytes, or as near to it as can be drawn.
pub fn good_data(random: &mut Random, symbology: u8, mode: u8, count: usize) -> Vec<u8> {
    let (least, most) = second::data_limits(symbology, mode).expect("a mode that is offered");
    let mut count = count.max(least).min(most);
    if symbology == 5 && (count + usize::from(mode == 2)) % 2 == 1 {
        count = if count == most { count - 1 } else { count + 1 };
    }
    let before_check = if mode == 1 { count - 1 } else { count };
    let mut data = Vec::new();
    let mut drawn = Vec::new();
    while data.len() < before_check {
        // Full ASCII: not more than 32 drawn, so one character to a byte where the room gets short.
        let left = 32usize.saturating_sub(drawn.len() + usize::from(mode != 0));
        let bytes_left = before_check - data.len();
        let byte = match symbology {
            2 if left > bytes_left => random.from(0x20, 0x7f) as u8,
            2 => random.one_of(b"0123456789ABCDEFGHIJKLMNOPQRSTUVWXYZ -."),
            _ => random.one_of(allowed(symbology, data.len(), before_check)),
        };
        match second::drawing_code(byte) {
            Some(code) if symbology == 2 => drawn.extend_from_slice(code),
            _ => drawn.push(byte),
        }
        data.push(byte);
    }
    if mode == 1 {
        data.push(second::check(symbology, &drawn));
    }
    data
}

/// Counts worth trying: the least, some between and the most.
pub fn counts(symbology: u8, mode: u8) -> Vec<usize> {
    let (least, most) = second::data_limits(symbology, mode).expect("a mode that is offered");
    let mut counts = vec![least, least + 1, least + 2, (least + most) / 2, most - 1, most];
    counts.retain(|&count| least <= count && count <= most);
    counts.sort_unstable();
    counts.dedup();
    counts
}
