//! Texts read by the proved function and in plain Rust: the same number, line and memory, and none changed by a refusal.

use fezgandom::MEMORY;
use hex_compare::both::Both;
use hex_compare::random::Random;
use hex_compare::texts::{character, data, record, text, END};

/// Lines with one ending after each.
fn joined(lines: &[Vec<u8>], ending: &[u8]) -> Vec<u8> {
    let ended = lines.iter().map(|line| [line, ending].concat());
    ended.collect::<Vec<_>>().concat()
}

/// Short texts that give 0, 15, 16, 17 and 18, each with LF and with CR LF.
fn short_texts() -> Vec<Vec<u8>> {
    let good = record(0, 0x12AB, &[0x00, 0xFF, 0x5A]);
    let last = record(0, 0xFFFE, &[0x9C, 0xD3]);
    let past = record(0, 0xFFFF, &[1, 2]);
    let odd = [&past[..], b"0"].concat();
    let mut texts = Vec::new();
    for ending in [&b"\n"[..], b"\r\n"] {
        for middle in [
            vec![last.clone(), END.to_vec()],
            vec![END.to_vec(), good.clone()],
            vec![odd.clone(), END.to_vec()],
            vec![past.clone(), END.to_vec()],
            vec![record(4, 0, &[0, 1]), past.clone(), END.to_vec()],
            vec![record(0, 7, &[]), last.clone()],
            vec![record(1, 7, &[]), last.clone()],
        ] {
            let lines = [vec![good.clone()], middle].concat();
            texts.push(joined(&lines, ending));
        }
    }
    texts
}

/// Every character changed to every other, put in anywhere, and gone.
#[test]
fn one_character() {
    let random = &mut Random::new(1, 0);
    let mut both = Both::new(random);
    for good in short_texts() {
        for at in 0..good.len() {
            for c in 0..=255 {
                let mut text = good.clone();
                text[at] = c;
                both.read(&text);
            }
            for &c in b":0123456789ABCDEFabcdef\r\n/;@G`g \0\x7F\x80\xFF" {
                let mut text = good.clone();
                text.insert(at, c);
                both.read(&text);
            }
            let mut text = good.clone();
            text.remove(at);
            both.read(&text);
        }
    }
    println!("{:?}", both.reads);
    for number in [0, 15, 16, 17, 18] {
        assert!(both.reads[number] > 0, "{number}");
    }
}

/// Two characters changed at once, in one line and in two.
#[test]
fn two_characters() {
    let random = &mut Random::new(2, 0);
    let mut both = Both::new(random);
    let texts = short_texts();
    for _ in 0..100_000 {
        let mut text = texts[random.below(texts.len())].clone();
        for _ in 0..2 {
            let at = random.below(text.len());
            text[at] = character(random);
        }
        both.read(&text);
    }
}

/// Texts cut at every place, from the front and from the back.
#[test]
fn cut_texts() {
    let mut both = Both::new(&mut Random::new(3, 0));
    for text in short_texts() {
        for at in 0..=text.len() {
            both.read(&text[..at]);
            both.read(&text[at..]);
        }
    }
}

/// Lines gone, doubled, and changed with others; endings changed.
#[test]
fn lines_and_endings() {
    let random = &mut Random::new(4, 0);
    let mut both = Both::new(random);
    let endings = [
        &b""[..],
        b"\n",
        b"\r\n",
        b"\r",
        b"\r\r\n",
        b"\n\n",
        b"\n\r",
        b" \n",
        b"\r\n ",
        b"\x0B\n",
        b"\0",
        b"\x1A",
    ];
    for text in short_texts() {
        let lines: Vec<Vec<u8>> = text
            .split_inclusive(|&c| c == b'\n')
            .map(Vec::from)
            .collect();
        for one in 0..lines.len() {
            let mut gone = lines.clone();
            gone.remove(one);
            both.read(&gone.concat());
            let mut doubled = lines.clone();
            doubled.insert(one, lines[one].clone());
            both.read(&doubled.concat());
            for other in 0..one {
                let mut turned = lines.clone();
                turned.swap(one, other);
                both.read(&turned.concat());
            }
            for ending in endings {
                let mut changed = lines.clone();
                changed[one] = [lines[one].trim_ascii_end(), ending].concat();
                both.read(&changed.concat());
            }
        }
    }
}

/// Every checksum but the right one is 15, and every type but 00 and 01 is 16, in the line where it stands.
#[test]
fn every_checksum_and_type() {
    let mut both = Both::new(&mut Random::new(5, 0));
    let good = record(0, 0x1000, &[1, 2, 3]);
    for byte in 0..=255u8 {
        let mut wrong = good.clone();
        let last = wrong.len() - 2;
        wrong[last..].copy_from_slice(format!("{byte:02X}").as_bytes());
        let expected = if wrong == good { (0, 0) } else { (15, 2) };
        let lines = [good.clone(), wrong, END.to_vec()];
        assert_eq!(both.read(&joined(&lines, b"\n")), expected);

        let typed = record(byte, 0, &[]);
        let expected = if byte < 2 { (0, 0) } else { (16, 2) };
        let lines = [good.clone(), typed, END.to_vec()];
        assert_eq!(both.read(&joined(&lines, b"\n")), expected);
    }
}

/// Records of every length, at every place where they end at hex FFFF, just before it and just past it.
#[test]
fn every_length_at_the_end_of_memory() {
    let random = &mut Random::new(6, 0);
    let mut both = Both::new(random);
    for length in 0..256usize {
        for past in [-1i32, 0, 1, 2] {
            let address = (65_536 - length as i32 + past).min(65_535);
            let bytes = data(random, length);
            let lines = [record(0, address as u16, &bytes), END.to_vec()];
            let expected = if address as usize + length > MEMORY {
                (17, 1)
            } else {
                (0, 0)
            };
            let look = |memory: &[u8]| {
                if expected.0 == 0 {
                    assert_eq!(memory[address as usize..][..length], bytes);
                }
            };
            let given = both.read_and(&joined(&lines, b"\r\n"), look);
            assert_eq!(given, expected);
        }
    }
}

/// Random texts of good and faulty lines, in a memory of the right size and of wrong ones: every number is given.
#[test]
fn random_texts() {
    let random = &mut Random::new(7, 0);
    let mut both = Both::new(random);
    for _ in 0..200_000 {
        both.read(&text(random));
    }
    let sizes = [0, 1, MEMORY - 1, MEMORY + 1, 2 * MEMORY];
    let wrong = sizes.map(|size| Both::over(vec![0; size]));
    for mut other in wrong {
        for _ in 0..1_000 {
            assert_eq!(other.read(&text(random)), (1, 0));
        }
        both.reads[1] += other.reads[1];
    }
    println!("{:?}", both.reads);
    for (number, &times) in both.reads.iter().enumerate() {
        let given = [0, 1, 15, 16, 17, 18].contains(&number);
        assert_eq!(times > 100, given, "{number}");
    }
}

/// Random characters, of all bytes and of those that stand in such texts.
#[test]
fn random_bytes() {
    let random = &mut Random::new(8, 0);
    let mut both = Both::new(random);
    for _ in 0..50_000 {
        let length = random.below(120);
        let bytes = data(random, length);
        both.read(&bytes);
        let characters: Vec<u8> = (0..length).map(|_| character(random)).collect();
        both.read(&characters);
        both.read(&[b":", &characters[..]].concat());
    }
}

/// Long texts, with records of all lengths in any order and over each other.
#[test]
fn long_texts() {
    let random = &mut Random::new(9, 0);
    let mut both = Both::new(random);
    for _ in 0..100 {
        let mut lines = Vec::new();
        for _ in 0..random.below(2_000) {
            let length = random.below(256);
            let address = random.below(MEMORY - length + 1).min(0xFFFF) as u16;
            lines.push(record(0, address, &data(random, length)));
        }
        lines.push(END.to_vec());
        assert_eq!(both.read(&joined(&lines, b"\r\n")), (0, 0));
        let at = random.below(lines.len());
        lines[at].pop();
        assert_eq!(both.read(&joined(&lines, b"\n")), (15, at + 1));
    }
}
