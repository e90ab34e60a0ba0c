//! Ranges written by the proved function and in plain Rust: the same answer and output; and read back.

use fezgandom::{hex, MEMORY};
use hex_compare::both::Both;
use hex_compare::random::Random;

/// A start and a length, mostly within memory and short, at times at its edges or past it.
fn range(random: &mut Random) -> (usize, usize) {
    let start = match random.below(8) {
        0 => MEMORY - random.below(40),
        1 => random.below(40),
        _ => random.below(MEMORY + 1),
    };
    let room = MEMORY - start;
    let length = match random.below(40) {
        0 => room,
        1 => room + 1 + random.below(3),
        2 => random.below(room + 1),
        3 => usize::MAX - random.below(MEMORY + 2),
        _ => random.below(100).min(room),
    };
    match random.below(40) {
        0 => (MEMORY + 1 + random.below(10), length.min(5)),
        1 => (usize::MAX - random.below(10), length),
        _ => (start, length),
    }
}

/// Random ranges and outputs: every number is given. What is written is read back into another memory, which then
/// has the range and is else as before.
#[test]
fn random_ranges() {
    let random = &mut Random::new(10, 0);
    let (mut both, mut other) = (Both::new(random), Both::new(random));
    for _ in 0..10_000 {
        let (start, length) = range(random);
        let most = both.write(start, length, hex::MOST_BYTES);
        let Ok(text) = most else {
            assert_eq!(both.write(start, length, random.below(50)), Err(17));
            continue;
        };
        let size = text.len();
        let less = 1 + random.below(size);
        assert_eq!(both.write(start, length, size - less), Err(19));
        assert_eq!(both.write(start, length, size - 1), Err(19));
        assert_eq!(both.write(start, length, size).as_ref(), Ok(&text));
        let more = size + random.below(100);
        assert_eq!(both.write(start, length, more).as_ref(), Ok(&text));

        let mut expected = other.memory().to_vec();
        expected[start..start + length].copy_from_slice(&both.memory()[start..start + length]);
        let given = other.read_and(&text, |memory| assert!(memory == expected));
        assert_eq!(given, (0, 0));
    }
    for size in [0, 1, MEMORY - 1, MEMORY + 1] {
        let mut wrong = Both::over(vec![0; size]);
        for _ in 0..100 {
            let (start, length) = range(random);
            assert_eq!(wrong.write(start, length, random.below(50)), Err(1));
        }
        both.writes[1] += wrong.writes[1];
    }
    println!("{:?}", both.writes);
    for (number, &times) in both.writes.iter().enumerate() {
        assert_eq!(times > 100, [0, 1, 17, 19].contains(&number), "{number}");
    }
}

/// Every short length, at places where the address changes its high byte and where memory ends.
#[test]
fn every_short_length() {
    let mut both = Both::new(&mut Random::new(11, 0));
    for start in [
        0,
        1,
        0xFF,
        0x7FF0,
        MEMORY - 70,
        MEMORY - 33,
        MEMORY - 1,
        MEMORY,
    ] {
        for length in 0..=70 {
            let expected = if start + length > MEMORY {
                Err(17)
            } else {
                Ok(())
            };
            let given = both.write(start, length, 1_000);
            assert_eq!(given.map(|_| ()), expected);
        }
    }
}
