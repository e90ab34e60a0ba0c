//! Intel HEX: what is read and written, and every refusal by its number and line.

use fezgandom::{ffi, hex, Refusal, MEMORY};

/// What memory holds before a call.
const OLD: u8 = 0xA5;

/// The end record.
const END: &str = ":00000001FF\r\n";

/// A record of a type: count, address, type, data and checksum, without a line ending.
fn record(kind: u8, address: u16, data: &[u8]) -> String {
    let [high, low] = address.to_be_bytes();
    let mut bytes = vec![data.len() as u8, high, low, kind];
    bytes.extend(data);
    let sum = bytes.iter().fold(0u8, |sum, &byte| sum.wrapping_add(byte));
    bytes.push(sum.wrapping_neg());
    let digits: String = bytes.iter().map(|byte| format!("{byte:02X}")).collect();
    format!(":{digits}")
}

/// The bytes of memory that are not as before, by address, after a text is read.
fn read(text: impl AsRef<[u8]>) -> Vec<(usize, u8)> {
    let mut memory = vec![OLD; MEMORY];
    assert_eq!(hex::read(text.as_ref(), &mut memory), Ok(()));
    let bytes = memory.into_iter().enumerate();
    bytes.filter(|&(_, byte)| byte != OLD).collect()
}

/// The number and the line, 0 for none, with which a text is refused, after a look that memory is
/// as before.
fn refused(text: impl AsRef<[u8]>) -> (u8, usize) {
    let mut memory = vec![OLD; MEMORY];
    let fault = hex::read(text.as_ref(), &mut memory).expect_err("a refusal");
    assert!(memory.iter().all(|&byte| byte == OLD));
    (fault.refusal.number(), fault.line.unwrap_or(0))
}

#[test]
fn records_land_at_their_addresses() {
    let text = [
        record(0, 0xFFFE, &[1, 2]),
        record(0, 0x0100, &[3, 4, 5]),
        record(0, 0x0101, &[6]),
        record(0, 0x0200, &[]),
        END.to_string(),
    ]
    .join("\n");
    let expected = [(0x100, 3), (0x101, 6), (0x102, 5), (0xFFFE, 1), (0xFFFF, 2)];
    assert_eq!(read(text), expected);
}

#[test]
fn lines_end_in_lf_or_cr_lf_which_the_last_may_lack() {
    let (one, two) = (record(0, 0, &[0xAB]), record(0, 1, &[0xCD]));
    let end = END.trim_end();
    for text in [
        format!("{one}\n{two}\n{end}\n"),
        format!("{one}\r\n{two}\r\n{end}\r\n"),
        format!("{one}\r\n{two}\n{end}"),
        format!("{one}\n{two}\r\n{end}"),
        format!("{one}\n{two}\n{end}").to_lowercase(),
    ] {
        assert_eq!(read(text), [(0, 0xAB), (1, 0xCD)]);
    }
    assert_eq!(refused(format!("{one}\r{end}")), (15, 1));
    assert_eq!(refused(format!("{one}\n{end}\r")), (15, 2));
    assert_eq!(refused(format!("{one}\r\r\n{end}")), (15, 1));
}

#[test]
fn what_follows_the_end_record_is_ignored() {
    let after = record(0, 0, &[1]);
    assert_eq!(read(format!("{END}{after}\n rubbish \r\r\0")), []);
}

#[test]
fn a_record_has_up_to_255_bytes() {
    let data: Vec<u8> = (0..255)
        .map(|byte| if byte == OLD { 0 } else { byte })
        .collect();
    let expected: Vec<(usize, u8)> = (0xFF01..).zip(data.iter().copied()).collect();
    let text = record(0, 0xFF01, &data);
    assert_eq!(read(format!("{text}\n{END}")), expected);
}

#[test]
fn malformed_lines() {
    let good = record(0, 0x1234, &[0x56]);
    let lines = [
        "",
        "\r",
        " ",
        ":",
        ":00",
        ":0000000",
        ":00000001F",
        ":00000001FF ",
        " :00000001FF",
        "00000001FF",
        ";00000001FF",
        ":00000001FE",
        ":0000000100",
        ":00000001GG",
        ":0000000:FF",
        ":00000001FFF",
        ":00000001FF00",
        ":01000000FF",
        ":000000010FF",
        ":00000001\u{FF}",
        &good[1..],
        &good[..good.len() - 1],
        &good.replace("56", "57"),
        &record(1, 0, &[0]),
        &record(1, 1, &[]),
        &record(1, 0xFF00, &[]),
        "::00000001FF",
        ":+0000001FF",
    ];
    for line in lines {
        assert_eq!(refused(format!("{line}\n{END}")), (15, 1), "{line:?}");
        let third = format!("{good}\r\n{good}\n{line}\r\n{END}");
        assert_eq!(refused(third), (15, 3), "{line:?}");
    }
}

#[test]
fn other_types() {
    for kind in 2..=255 {
        let line = record(kind, 0, &[0, 0]);
        assert_eq!(refused(format!("{line}\n{END}")), (16, 1));
    }
}

#[test]
fn data_past_the_end() {
    let two = |address| format!("{}\n{END}", record(0, address, &[1, 2]));
    assert_eq!(read(two(0xFFFE)).len(), 2);
    assert_eq!(refused(two(0xFFFF)), (17, 1));
    assert_eq!(read(format!("{}\n{END}", record(0, 0xFFFF, &[]))), []);
    let most = record(0, 0xFFFF, &[0; 255]);
    assert_eq!(refused(format!("{most}\n{END}")), (17, 1));
}

#[test]
fn no_end_record() {
    let good = record(0, 0, &[1]);
    assert_eq!(refused(""), (18, 0));
    assert_eq!(refused(&good), (18, 0));
    assert_eq!(refused(format!("{good}\r\n{good}\r\n")), (18, 0));
    assert_eq!(refused(format!("{good}\n\n")), (15, 2));
}

#[test]
fn the_first_faulty_line_decides_and_the_lowest_number_in_it() {
    let past = record(0, 0xFFFF, &[1, 2]);
    let other = record(4, 0xFFFF, &[1, 2]);
    let wrong = other.replace("04", "05");
    let lines = [(&past, 17), (&other, 16), (&wrong, 15)];
    for (first, number) in lines {
        for (second, _) in lines {
            assert_eq!(refused(format!("{first}\n{second}\n")), (number, 1));
        }
    }
}

#[test]
fn memory_has_65536_bytes() {
    for size in [0, 1, MEMORY - 1, MEMORY + 1] {
        let mut memory = vec![OLD; size];
        for text in [END, "", "rubbish"] {
            let fault = hex::read(text.as_bytes(), &mut memory).expect_err("a refusal");
            assert_eq!((fault.refusal, fault.line), (Refusal::MemorySize, None));
        }
        assert_eq!(memory, vec![OLD; size]);
        let mut out = [OLD; 20];
        let written = hex::write(&memory, 0..MEMORY + 1, &mut out);
        assert_eq!(written, Err(Refusal::MemorySize));
        assert_eq!(out, [OLD; 20]);
    }
}

#[test]
fn records_of_16_bytes_and_a_shorter_one() {
    let memory: Vec<u8> = (0..MEMORY).map(|address| address as u8).collect();
    let text = hex::text(&memory, 0x12FF..0x1320).expect("a text");
    let expected = "\
        :1012FF00FF000102030405060708090A0B0C0D0E77\r\n\
        :10130F000F101112131415161718191A1B1C1D1E66\r\n\
        :01131F001FAE\r\n\
        :00000001FF\r\n";
    assert_eq!(String::from_utf8(text).expect("characters"), expected);
}

#[test]
fn an_empty_range_is_the_end_record() {
    for start in [0, 0x1234, MEMORY - 1, MEMORY] {
        let text = hex::text(&[0; MEMORY], start..start).expect("a text");
        assert_eq!(text, END.as_bytes());
    }
    let backwards = std::ops::Range { start: 5, end: 3 };
    assert_eq!(hex::text(&[0; MEMORY], backwards), Ok(END.into()));
}

#[test]
fn the_whole_memory_and_back() {
    let memory: Vec<u8> = (0..MEMORY).map(|a| (a * 7 + a / 256) as u8).collect();
    let text = hex::text(&memory, 0..MEMORY).expect("a text");
    assert_eq!(text.len(), hex::MOST_BYTES);
    let mut other = vec![OLD; MEMORY];
    assert_eq!(hex::read(&text, &mut other), Ok(()));
    assert!(other == memory);
}

#[test]
fn ranges_past_the_end() {
    let memory = [OLD; MEMORY];
    for range in [
        0..MEMORY + 1,
        MEMORY - 1..MEMORY + 1,
        MEMORY..MEMORY + 1,
        MEMORY + 1..MEMORY + 1,
        usize::MAX..usize::MAX,
        0..usize::MAX,
    ] {
        assert_eq!(hex::text(&memory, range.clone()), Err(Refusal::HexPastEnd));
        assert_eq!(
            hex::write(&memory, range, &mut []),
            Err(Refusal::HexPastEnd)
        );
    }
    let mut out = [OLD; 20];
    for (start, length) in [(usize::MAX, 1), (1, usize::MAX), (usize::MAX, usize::MAX)] {
        assert_eq!(ffi::hex_write(&memory, start, length, &mut out), 17);
    }
    assert_eq!(out, [OLD; 20]);
}

#[test]
fn output_past_the_text_stays_and_a_shorter_one_is_refused() {
    let memory = [0x5A; MEMORY];
    for length in [0, 1, 15, 16, 17, 100] {
        let range = 0x8000..0x8000 + length;
        let text = hex::text(&memory, range.clone()).expect("a text");
        let mut out = vec![OLD; text.len() + 9];
        let written = hex::write(&memory, range.clone(), &mut out);
        assert_eq!(written, Ok(text.len()));
        assert_eq!(out, [&text[..], &[OLD; 9]].concat());

        assert_eq!(
            hex::write(&memory, range.clone(), &mut out[..text.len()]),
            Ok(text.len())
        );
        for short in [0, 12, text.len() - 1] {
            let mut out = vec![OLD; short];
            let refused = hex::write(&memory, range.clone(), &mut out);
            assert_eq!(refused, Err(Refusal::HexOutputShort));
            assert_eq!(out, vec![OLD; short]);
        }
    }
}

#[test]
fn faults_are_said_with_their_line() {
    let said = |text: &str| {
        let fault = hex::read(text.as_bytes(), &mut [0; MEMORY]).expect_err("a refusal");
        fault.to_string()
    };
    let good = record(0, 0, &[1]);
    let other = record(2, 0, &[0, 0]);
    assert_eq!(
        said(&format!("{good}\n\n")),
        "15 in line 2: malformed line or wrong checksum"
    );
    assert_eq!(
        said(&other),
        "16 in line 1: a record's type is neither 00 nor 01"
    );
    assert_eq!(said(&good), "18: no end record");
}
