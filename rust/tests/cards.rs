//! The bench cards of document 01 without a star, ANA as change request W2 mends it; the starred ones are proved
//! (crates/demands, specs/Bench).

use fezgandom::{Board, Machine, Ran, Refusal, Schedule, Trace};

/// "ANA: A FC with 0F gives 0C, CY 0", and by change request W2: "The card for FC with 0F now shows AC 1".
#[test]
fn ana_of_fc_and_0f() {
    let mut board = Board::with_program(&[0xA0]); // ANA B
    let mut machine = Machine::cold();
    machine.set_a(0xFC);
    machine.set_b(0x0F);
    let ran = machine.run(&mut board, &Schedule::new(), &mut Trace::new(), 4);
    assert_eq!(ran, Ok(Ran::Done { states: 4 }));
    assert_eq!(machine.a(), 0x0C);
    assert_eq!((machine.flags().cy, machine.flags().ac), (false, true));
}

/// Change request W2, "DAA after ANA": 08 with 01 gives 00 with AC 1, so DAA adds 6.
#[test]
fn daa_after_ani() {
    let mut board = Board::with_program(&[0xE6, 0x01, 0x27]); // ANI 01; DAA
    let mut machine = Machine::cold();
    machine.set_a(0x08);
    let ran = machine.run(&mut board, &Schedule::new(), &mut Trace::new(), 7 + 4);
    assert_eq!(ran, Ok(Ran::Done { states: 11 }));
    assert_eq!(machine.a(), 0x06);
    assert_eq!((machine.flags().cy, machine.flags().ac), (false, false));
}

/// "8,192 states asked are allowed; 8,193 give 6."
#[test]
fn states_allowed() {
    let run = |states| {
        Machine::cold().run(
            &mut Board::new(),
            &Schedule::new(),
            &mut Trace::new(),
            states,
        )
    };
    assert_eq!(run(8_192), Ok(Ran::Done { states: 8_192 }));
    assert_eq!(run(8_193), Err(Refusal::TooManyStates));
    assert_eq!(Refusal::TooManyStates.number(), 6);
}
