//! Times the independent Rust implementation of document 01, the one that the Rust tests compare the library with.
//! Use: second rounds < labels, where `timing labels` printed the labels; prints lines like timing's.

#[allow(dead_code)]
#[path = "../rust/tests/second/mod.rs"]
mod second;

use std::hint::black_box;
use std::io::Read;
use std::time::Instant;

struct Label {
    text: Vec<u8>,
    strip: Vec<u8>,
}

struct Work {
    symbology: u8,
    mode: u8,
    size: String,
    labels: Vec<Label>,
}

/// What a round should last, in ns, as in timing.c.
const ROUND: f64 = 40000.0;

fn works() -> Vec<Work> {
    let mut input = String::new();
    std::io::stdin().read_to_string(&mut input).expect("labels");
    let mut works: Vec<Work> = Vec::new();
    for line in input.lines() {
        let part: Vec<&str> = line.split(' ').collect();
        let symbology = part[0].parse().expect("symbology");
        let mode = part[1].parse().expect("mode");
        let text = (0..part[3].len() / 2)
            .map(|i| u8::from_str_radix(&part[3][2 * i..2 * i + 2], 16).expect("hex"))
            .collect();
        let strip = part[4].bytes().map(|b| b - b'0').collect();
        let new = works.last().map_or(true, |w| w.symbology != symbology || w.size != part[2]);
        if new {
            works.push(Work { symbology, mode, size: part[2].to_string(), labels: Vec::new() });
        }
        works.last_mut().expect("work").labels.push(Label { text, strip });
    }
    works
}

fn draw_all(w: &Work, turns: usize) {
    let mut room = [0u8; 339];
    for _ in 0..turns {
        for l in &w.labels {
            black_box(second::draw(black_box(w.symbology), w.mode, black_box(&l.text), &mut room));
            black_box(&room);
        }
    }
}

fn read_all(w: &Work, turns: usize) {
    let mut room = [0u8; 40];
    for _ in 0..turns {
        for l in &w.labels {
            black_box(second::read(black_box(w.symbology), w.mode, black_box(&l.strip), &mut room));
            black_box(&room);
        }
    }
}

/// The same strips and the same data as the library's, or the times would mean nothing.
fn check(w: &Work) {
    for l in &w.labels {
        let mut strip = [0u8; 339];
        let drawn = second::draw(w.symbology, w.mode, &l.text, &mut strip);
        assert_eq!((drawn[0], &strip[..drawn[2] as usize]), (0, &l.strip[..]));
        let mut data = [0u8; 40];
        let read = second::read(w.symbology, w.mode, &l.strip, &mut data);
        assert_eq!((read[0], &data[..read[2] as usize]), (0, &l.text[..]));
    }
}

fn time(w: &Work, run: fn(&Work, usize), rounds: usize) -> f64 {
    let once = |turns: usize| {
        let from = Instant::now();
        run(w, turns);
        from.elapsed().as_nanos() as f64 / turns as f64
    };
    once(4);
    let guess = (0..3).map(|_| once(2)).fold(f64::MAX, f64::min);
    let turns = ((ROUND / guess) as usize).max(1);
    (0..rounds).map(|_| once(turns)).fold(f64::MAX, f64::min) / w.labels.len() as f64
}

fn main() {
    let rounds = std::env::args().nth(1).and_then(|a| a.parse().ok()).unwrap_or(100);
    for w in &works() {
        check(w);
        println!("time draw {} {} second {:.2}", w.symbology, w.size, time(w, draw_all, rounds));
        println!("time read {} {} second {:.2}", w.symbology, w.size, time(w, read_all, rounds));
    }
}
