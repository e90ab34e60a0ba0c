//! The proved functions and the model do the same, byte for byte.

use compare::cases::bench::Bench;
use compare::model::flat::flatten;
use compare::model::record::Machine;
use compare::proved::Proved;
use compare::side::{Model, Side};

/// 300,000 random cases, in which everything that the tally names was met often enough.
#[test]
fn random_cases() {
    let mut bench = Bench::new(&Model, &Proved, 1);
    let found = bench.cases(0, 300_000);
    println!("{}", bench.tally);
    found.and(bench.tally.demand(3)).unwrap();
}

/// Rule 8 at every opcode, place and acknowledge, with kept bytes that are zero and that are not.
#[test]
fn every_place_is_judged_alike() {
    let mut met = [0, 0];
    for opcode in 0..=255 {
        for place in 0..7 * 7 * 7 {
            let [next, cycle, state] = [place / 49, place / 7 % 7, place % 7];
            for variant in 0..30 {
                let record = variant_of(opcode, [next, cycle, state], variant);
                let well = Model.well(&record);
                met[usize::from(well)] += 1;
                assert_eq!(well, Proved.well(&record), "{record:02X?}");
            }
        }
    }
    assert!(met[0] > 1_000_000 && met[1] > 4_000, "{met:?}");
}

/// A record at a place, with one of three acknowledges, of two flag bytes and of five fillings of the kept bytes.
fn variant_of(opcode: u8, place: [usize; 3], variant: u8) -> [u8; 64] {
    let mut record = flatten(&Machine::cold());
    let acknowledge = variant / 10;
    record[1] = [0x02, 0xD7][usize::from(variant / 5 % 2)];
    record[13] = place[0] as u8;
    record[24] = place[1] as u8;
    record[25] = place[2] as u8;
    record[26] = opcode;
    record[27] = acknowledge;
    record[28] = if acknowledge == 0 {
        0
    } else {
        (opcode >> 3) & 7
    };
    let kept = usize::from(variant % 5);
    record[29..29 + kept].fill(1);
    record
}
