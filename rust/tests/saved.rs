//! Saving and loading.

use fezgandom::{Board, Flags, Machine, Next, Schedule, Trace, SAVED};

/// A machine and a board with something everywhere.
fn full() -> (Machine, Board) {
    let mut board = Board::new();
    for (i, byte) in board.memory.iter_mut().enumerate() {
        *byte = (i % 251) as u8;
    }
    for (i, port) in board.outputs.iter_mut().enumerate() {
        *port = 255 - i as u8;
    }
    let mut machine = Machine::cold();
    machine.set_a(0x12);
    machine.set_flags(Flags::from_byte(0xFF));
    machine.set_bc(0x3456);
    machine.set_de(0x789A);
    machine.set_hl(0xBCDE);
    machine.set_sp(0xF012);
    machine.set_pc(0x3457);
    machine.set_inte(true);
    machine.set_clock(0x0403_0201);
    machine.set_hold(true);
    machine.set_int(Some(7));
    (machine, board)
}

#[test]
fn the_saved_form_is_the_papers() {
    let (machine, board) = full();
    let saved = machine.save(&board).expect("a saved form");
    let head = [
        0x12, 0xD7, 0x34, 0x56, 0x78, 0x9A, 0xBC, 0xDE, 0x12, 0xF0, 0x57, 0x34, 1, 0, 1, 2, 3, 4,
        1, 1, 7, 0, 0, 0,
    ];
    assert_eq!(saved.len(), SAVED);
    assert_eq!(saved[..24], head);
    assert_eq!(saved[24..280], board.outputs);
    assert_eq!(saved[280..], board.memory[..]);
}

#[test]
fn what_was_saved_is_loaded() {
    let (machine, board) = full();
    let saved = machine.save(&board).expect("a saved form");
    let (mut other, mut empty) = (Machine::from_bytes([0xFF; 64]), Board::new());
    assert_eq!(other.load(&saved, &mut empty), Ok(()));
    assert_eq!(other, machine);
    assert_eq!(empty, board);
}

#[test]
fn halted_and_stopped_machines_are_saved() {
    for (opcode, next) in [(0x76, Next::Halt), (0xED, Next::Stop)] {
        let (mut machine, mut board) = (Machine::cold(), Board::with_program(&[opcode]));
        let ran = machine.run(&mut board, &Schedule::new(), &mut Trace::new(), 7);
        assert!(ran.is_ok() && machine.next() == next);
        let saved = machine.save(&board).expect("a saved form");
        let mut other = Machine::cold();
        assert_eq!(other.load(&saved, &mut Board::new()), Ok(()));
        assert_eq!(other, machine);
    }
}

#[test]
fn a_loaded_machine_goes_on_as_the_saved_one() {
    let mut board = Board::with_program(&[0x3C, 0xF5, 0xC3, 0x00, 0x00]);
    let (mut machine, mut rows) = (Machine::cold(), Trace::new());
    let none = Schedule::new();
    machine
        .run(&mut board, &none, &mut Trace::new(), 5 + 11 + 10)
        .expect("a run");
    let saved = machine.save(&board).expect("a saved form");
    machine
        .run(&mut board, &none, &mut rows, 1_000)
        .expect("a run");

    let (mut other, mut copy, mut again) = (Machine::cold(), Board::new(), Trace::new());
    other.load(&saved, &mut copy).expect("what was saved");
    other
        .run(&mut copy, &none, &mut again, 1_000)
        .expect("a run");
    assert_eq!((other, copy), (machine, board));
    assert_eq!(again.rows(), rows.rows());
}
