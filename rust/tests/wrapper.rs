//! The wrapper's types against the raw calls: same numbers, same bytes, places of the right kind.

use strip::*;

/// Draws by both functions of the wrapper and by the raw call; they must say the same.
fn draw_all_ways(symbology: Symbology, mode: Mode, data: &[u8], room: usize) -> Result<Drawn, Refusal> {
    let (mut by_raw, mut lent) = (vec![99; room], vec![99; room]);
    let answer = raw::draw(symbology.number(), mode.number(), data, &mut by_raw);
    let result = draw_into(symbology, mode, data, &mut lent).map(|drawn| Drawn {
        strip: drawn.strip.to_vec(),
        elements: drawn.elements,
        modules: drawn.modules,
    });
    assert_eq!(by_raw, lent);
    match &result {
        Ok(drawn) => {
            assert_eq!((answer.number, answer.place), (0, 0));
            assert_eq!((answer.count, answer.total), (drawn.elements.0 as u64, drawn.modules.0 as u64));
            assert_eq!(drawn.strip, &lent[..drawn.elements.0]);
            assert_eq!(draw(symbology, mode, data).as_ref(), Ok(drawn));
        }
        Err(refusal) => {
            assert_eq!((answer.number, answer.place), (u64::from(refusal.number()), refusal.place() as u64));
            assert_eq!((answer.count, answer.total), (0, 0));
            assert!(lent.iter().all(|&byte| byte == 99));
            if refusal.number() != 8 {
                assert_eq!(draw(symbology, mode, data), Err(*refusal));
            }
        }
    }
    result
}

/// Reads likewise.
fn read_all_ways(symbology: Symbology, mode: Mode, strip: &[u8], room: usize) -> Result<Read, Refusal> {
    let (mut by_raw, mut lent) = (vec![99; room], vec![99; room]);
    let answer = raw::read(symbology.number(), mode.number(), strip, &mut by_raw);
    let result = read_into(symbology, mode, strip, &mut lent).map(|read| Read {
        data: read.data.to_vec(),
        bytes: read.bytes,
        modules: read.modules,
    });
    assert_eq!(by_raw, lent);
    match &result {
        Ok(back) => {
            assert_eq!((answer.number, answer.place), (0, 0));
            assert_eq!((answer.count, answer.total), (back.bytes.0 as u64, back.modules.0 as u64));
            assert_eq!(back.data, &lent[..back.bytes.0]);
            assert_eq!(read(symbology, mode, strip).as_ref(), Ok(back));
        }
        Err(refusal) => {
            assert_eq!((answer.number, answer.place), (u64::from(refusal.number()), refusal.place() as u64));
            assert_eq!((answer.count, answer.total), (0, 0));
            assert!(lent.iter().all(|&byte| byte == 99));
            if refusal.number() != 8 {
                assert_eq!(read(symbology, mode, strip), Err(*refusal));
            }
        }
    }
    result
}

/// Requests and strips of every kind, all ways, in every symbology and mode.
#[test]
fn all_ways() {
    let mut cases = 0;
    let data: [&[u8]; 12] = [
        b"",
        b"4",
        b"17",
        b"417",
        b"A5B",
        b"a1A",
        b"+A19",
        b"\xff\0",
        b"10762219",
        b"000000004176",
        b"1076221357468",
        b"abcdefghijklmnopqrstuvwxyzABCDEF",
    ];
    let rooms = [0, 1, 16, 17, 43, 59, STRIP_ROOM, 400];
    let mut strips = vec![vec![], vec![1], vec![0; 17], vec![1; 59]];
    for symbology in Symbology::ALL {
        for mode in Mode::ALL {
            for text in data {
                for room in rooms {
                    if let Ok(drawn) = draw_all_ways(symbology, mode, text, room) {
                        strips.push(drawn.strip);
                    }
                    cases += 1;
                }
            }
        }
    }
    strips.sort();
    strips.dedup();
    assert!(strips.len() > 20);
    for strip in strips {
        let mut spoiled = strip.clone();
        if let Some(element) = spoiled.get_mut(7) {
            *element = 2;
        }
        for symbology in Symbology::ALL {
            for mode in Mode::ALL {
                for room in [0, 1, 2, 12, 13, DATA_ROOM, 60] {
                    let _ = read_all_ways(symbology, mode, &strip, room);
                    let _ = read_all_ways(symbology, mode, &spoiled, room);
                    cases += 2;
                }
            }
        }
    }
    println!("cases: all_ways {cases}");
    assert!(cases >= 10_000);
}

/// The longest strip and the longest data just fit the wrapper's own buffers.
#[test]
fn longest() {
    let drawn = draw(Symbology::Code39, Mode::Plain, &[b'%'; 32]).expect("32 characters");
    assert_eq!((drawn.strip.len(), drawn.elements, drawn.modules), (STRIP_ROOM, Elements(339), Modules(543)));
    let mut data = [b'9'; DATA_ROOM];
    (data[0], data[33]) = (b'A', b'D');
    let drawn = draw(Symbology::Codabar, Mode::Plain, &data).expect("34 characters");
    let back = read(Symbology::Codabar, Mode::Plain, &drawn.strip).expect("read back");
    assert_eq!((back.data, back.bytes, back.modules), (data.to_vec(), Bytes(34), Modules(32 * 12 + 2 * 14 - 1)));
    println!("cases: longest 2");
}

/// Each refusal's number, place and words.
#[test]
fn words() {
    let rows: [(Refusal, u8, usize, &str); 14] = [
        (Refusal::Symbology, 1, 0, "there is no such symbology: they are numbered 1 to 9"),
        (Refusal::Mode, 2, 0, "this symbology does not offer that mode"),
        (Refusal::DataCount, 3, 0, "too few or too many data bytes for this symbology and mode"),
        (Refusal::Byte(DataPlace(2)), 4, 2, "byte 3 of the data is not allowed there"),
        (Refusal::OddCount, 5, 0, "Interleaved 2 of 5 takes an even number of digits, the check digit among them"),
        (Refusal::TooManyCharacters, 6, 0, "the data would be drawn as more than 32 characters"),
        (Refusal::Check(CharPlace(7)), 7, 7, "the check is wrong: character 8 of those drawn"),
        (Refusal::ElementsNeeded(Elements(17)), 8, 17, "the buffer is too short: the strip has 17 elements"),
        (Refusal::BytesNeeded(Bytes(1)), 8, 1, "the buffer is too short: the data have 1 byte"),
        (Refusal::StripLength, 9, 0, "no strip of this symbology and mode has that many elements"),
        (
            Refusal::NoRow(ElementPlace(11)),
            10,
            11,
            "what begins at element 12 of the strip is no pattern that may stand there",
        ),
        (Refusal::Parities, 11, 3, "the left digits, from element 4 of the strip on, stand for no first digit"),
        (Refusal::NotAnExpansion(CharPlace(2)), 12, 2, "what begins at character 3 of those drawn stands for no byte"),
        (Refusal::AfterData(DataPlace(4)), 13, 4, "byte 5 of the data field stands behind the data and is not zero"),
    ];
    for (refusal, number, place, words) in rows {
        assert_eq!((refusal.number(), refusal.place()), (number, place));
        let error: Box<dyn std::error::Error> = Box::new(refusal);
        assert_eq!(error.to_string(), words);
    }
    println!("cases: words {}", rows.len());
}

/// Each refusal that a typed call can give, with its place.
#[test]
fn refusals() {
    use {Mode::*, Symbology::*};
    let upc = draw(UpcA, AddCheck, b"00000000417").expect("drawn").strip;
    let mut no_row = upc.clone();
    no_row[12] = 4; // of the third digit, which begins at 11
    let mut wrong_check = draw(Ean8, AddCheck, b"1076221").expect("drawn").strip;
    wrong_check[36..40].copy_from_slice(&[3, 2, 1, 1]); // 0 for 9
    let mut parities = draw(Ean13, AddCheck, b"107622135746").expect("drawn").strip;
    parities[3..7].reverse(); // the other set
    let no_pair = draw(Code39, Plain, b"AB/M").expect("drawn").strip;
    let rows: [(Option<Refusal>, Refusal); 13] = [
        (draw(Codabar, Checked, b"A5B").err(), Refusal::Mode),
        (draw(Code39, Plain, b"").err(), Refusal::DataCount),
        (draw(Ean8, AddCheck, b"10A6221").err(), Refusal::Byte(DataPlace(2))),
        (draw(Interleaved2of5, AddCheck, b"4176").err(), Refusal::OddCount),
        (draw(Code39FullAscii, Plain, &[b'a'; 17]).err(), Refusal::TooManyCharacters),
        (draw(Matrix2of5, Checked, b"10416").err(), Refusal::Check(CharPlace(4))),
        (draw_into(Industrial2of5, Plain, b"0", &mut [0; 20]).err(), Refusal::ElementsNeeded(Elements(21))),
        (read_into(UpcA, AddCheck, &upc, &mut []).err(), Refusal::BytesNeeded(Bytes(11))),
        (read(Code39, Plain, &[]).err(), Refusal::StripLength),
        (read(UpcA, Checked, &no_row).err(), Refusal::NoRow(ElementPlace(11))),
        (read(Ean13, Checked, &parities).err(), Refusal::Parities),
        (read(Code39FullAscii, Plain, &no_pair).err(), Refusal::NotAnExpansion(CharPlace(2))),
        (read(Ean8, Checked, &wrong_check).err(), Refusal::Check(CharPlace(7))),
    ];
    for (called, refusal) in rows {
        assert_eq!(called, Some(refusal));
    }
    println!("cases: refusals {}", rows.len());
}

/// Numbers that a call never answers, and places that a number never has, are no refusals.
#[test]
fn from_numbers() {
    let mut cases = 0;
    for asked in [Asked::Draw, Asked::Read] {
        let given: &[u64] = match asked {
            Asked::Draw => &[1, 2, 3, 4, 5, 6, 7, 8, 13],
            Asked::Read => &[1, 2, 7, 8, 9, 10, 11, 12],
        };
        for number in (0..300).chain([u64::MAX]) {
            for place in [0, 1, 3, 17, u64::from(u32::MAX)] {
                let known = given.contains(&number)
                    && match number {
                        1 | 2 | 3 | 5 | 6 | 9 => place == 0,
                        11 => place == 3,
                        _ => true,
                    };
                let refusal = Refusal::from_numbers(asked, number, place);
                assert_eq!(refusal.is_some(), known, "{asked:?} {number} {place}");
                if let Some(refusal) = refusal {
                    assert_eq!((u64::from(refusal.number()), refusal.place() as u64), (number, place));
                }
                cases += 1;
            }
        }
    }
    println!("cases: from_numbers {cases}");
    assert!(cases >= 3_000);
}

/// Numbers and names go both ways.
#[test]
fn numbers() {
    for number in 0..=255 {
        assert_eq!(Symbology::from_number(number).is_some(), (1..=9).contains(&number));
        assert_eq!(Mode::from_number(number).is_some(), number <= 2);
        assert!(Symbology::from_number(number).map_or(true, |symbology| symbology.number() == number));
        assert!(Mode::from_number(number).map_or(true, |mode| mode.number() == number));
    }
    assert_eq!(DataPlace(usize::MAX).to_string(), format!("byte {}", usize::MAX as u128 + 1));
    assert_eq!((Elements(1).to_string(), Modules(2).to_string()), ("1 element".into(), "2 modules".into()));
    println!("cases: numbers 256");
}
