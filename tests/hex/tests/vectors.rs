//! The texts of `vectors`, which srecord and binutils wrote (see `make-vectors`), on both sides.

use fezgandom::{hex, MEMORY};
use hex_compare::both::Both;
use std::path::Path;

/// A file of `vectors`.
fn file(name: &str) -> Vec<u8> {
    let folder = Path::new(env!("CARGO_MANIFEST_DIR")).join("vectors");
    std::fs::read(folder.join(name)).expect(name)
}

/// A number of the list, decimal or after 0x.
fn number(word: &str) -> usize {
    match word.strip_prefix("0x") {
        Some(digits) => usize::from_str_radix(digits, 16).expect(word),
        None => word.parse().expect(word),
    }
}

/// A good text gives its range, in a memory of zeros, and these stay elsewhere. The range is written as the same text
/// again, or not.
fn good(name: &str, start: usize, length: usize, so: bool) {
    let (text, bytes) = (file(&format!("{name}.hex")), file(&format!("{name}.bin")));
    assert_eq!(bytes.len(), length, "{name}");
    let mut expected = vec![0; MEMORY];
    expected[start..start + length].copy_from_slice(&bytes);
    let mut both = Both::over(vec![0; MEMORY]);
    let given = both.read_and(&text, |memory| assert!(memory == expected, "{name}"));
    assert_eq!(given, (0, 0), "{name}");

    let written = Both::over(expected).write(start, length, hex::MOST_BYTES);
    assert_eq!(written.expect(name) == text, so, "{name}");
}

#[test]
fn vectors() {
    let list = String::from_utf8(file("list")).expect("characters");
    let mut both = Both::over((0..MEMORY).map(|address| address as u8).collect());
    let mut met = [0; 3];
    for line in list.lines() {
        match line.split('\t').collect::<Vec<_>>()[..] {
            [name, "refused", refusal, at] => {
                let expected = (number(refusal) as u8, number(at));
                let given = both.read(&file(&format!("{name}.hex")));
                assert_eq!(given, expected, "{name}");
                met[0] += 1;
            }
            [name, start, length, so] => {
                good(name, number(start), number(length), so == "so");
                met[if so == "so" { 1 } else { 2 }] += 1;
            }
            _ => panic!("{line}"),
        }
    }
    assert_eq!(met, [17, 8, 11]);
}
