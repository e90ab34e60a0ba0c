//! Runs, held against what the customer's paper says of them.

use fezgandom::{
    Board, Kind, Lent, Machine, Next, Ran, Refusal, Request, Row, Schedule, State, Trace,
};

/// What the printing program prints for 3E 05 76, but for its last line.
const SAMPLE: &str = "\
0 T1 1 0000 00
1 T2 1 0000 00
2 T3 1 0000 3E
3 T4 1 0000 00
4 T1 2 0001 00
5 T2 2 0001 00
6 T3 2 0001 05
7 T1 1 0002 00
8 T2 1 0002 00
9 T3 1 0002 76
10 T4 1 0000 00
11 T1 9 0003 00
12 T2 9 0003 00
13 T3 9 0003 00
";

/// Stack, ports, memory and a halt, over and over.
const BUSY: [u8; 18] = [
    0x31, 0x00, 0x20, // LXI SP,2000
    0xFB, // EI
    0x3C, // INR A
    0xD3, 0x07, // OUT 07
    0xE5, // PUSH H
    0x21, 0x34, 0x12, // LXI H,1234
    0xE3, // XTHL
    0xE1, // POP H
    0x77, // MOV M,A
    0x76, // HLT
    0xC3, 0x43, 0x00, // JMP 0043
];

/// What an interrupt does: INR D, EI, RET.
const SERVICE: [u8; 3] = [0x14, 0xFB, 0xC9];

/// The busy program at 0040 and what answers each of the eight restarts below it.
fn busy() -> (Machine, Board) {
    let mut board = Board::new();
    (0..8).for_each(|n| board.put(8 * n, &SERVICE));
    board.put(0x40, &BUSY);
    let mut machine = Machine::cold();
    machine.set_pc(0x40);
    (machine, board)
}

/// Lines that move often enough to meet every part of an instruction.
fn restless() -> Schedule {
    (0..80).fold(Schedule::new(), |schedule, k| {
        let ready = schedule.at(13 * k).ready(false).at(13 * k + 2).ready(true);
        let hold = ready.at(13 * k + 5).hold(true).int((k % 8) as u8);
        hold.at(13 * k + 7).hold(false)
    })
}

/// The rows of a run of a program from a cold machine.
fn rows(program: &[u8], schedule: Schedule, states: u32) -> Vec<Row> {
    let mut trace = Trace::new();
    let mut board = Board::with_program(program);
    let ran = Machine::cold().run(&mut board, &schedule, &mut trace, states);
    assert_eq!(ran, Ok(Ran::Done { states }));
    trace.rows().to_vec()
}

/// The states in which a state of this name is done.
fn numbers(rows: &[Row], state: State) -> Vec<u32> {
    let named = rows.iter().filter(|r| r.state == state);
    named.map(|r| r.number).collect()
}

#[test]
fn sample_is_traced_as_in_the_paper() {
    let mut board = Board::with_program(&[0x3E, 0x05, 0x76]);
    let (mut machine, mut trace) = (Machine::cold(), Trace::new());
    let ran = machine.run(&mut board, &Schedule::new(), &mut trace, 14);
    assert_eq!(ran, Ok(Ran::Done { states: 14 }));
    assert_eq!(trace.to_string(), SAMPLE);
    assert_eq!((machine.a(), machine.pc(), machine.clock()), (5, 3, 14));
    assert_eq!(machine.next(), Next::Halt);
}

#[test]
fn rows_carry_status_cycle_and_levels() {
    let rows = rows(&[0x3E, 0x05], Schedule::new().at(1).hold(true), 7);
    assert_eq!(rows[0].to_bytes(), [1, 1, 0, 0, 0, 0xA2, 1, 1]);
    assert_eq!(rows[1].to_bytes(), [2, 1, 0, 0, 0, 0, 1, 3]);
    assert_eq!(rows[4].state, State::Hold);
}

#[test]
fn waits_are_the_states_with_ready_down_from_t2_on() {
    let waits = Schedule::new().at(1).ready(false).at(3).ready(true);
    assert_eq!(numbers(&rows(&[0], waits, 8), State::T1), [0, 6]);
    let too_early = Schedule::new().at(0).ready(false).at(1).ready(true);
    assert_eq!(numbers(&rows(&[0], too_early, 8), State::T1), [0, 4]);
}

#[test]
fn a_hold_follows_the_last_state_with_hold_up() {
    let hold = Schedule::new().at(3).hold(true).at(4).hold(false);
    assert_eq!(numbers(&rows(&[0], hold, 8), State::Hold), [4]);
}

#[test]
fn no_interrupt_straight_after_ei() {
    let rows = rows(&[0xFB, 0x00], Schedule::new().at(0).int(3), 19);
    let first = rows.iter().find(|r| r.kind == Kind::Acknowledge);
    assert_eq!(first.map(|r| r.number), Some(8));
    assert_eq!(rows[10].byte, 0xDF);
}

#[test]
fn an_interrupt_ends_a_halt() {
    let (mut board, mut machine) = (Board::with_program(&[0xFB, 0x76]), Machine::cold());
    let (mut trace, schedule) = (Trace::new(), Schedule::new().at(20).int(2));
    machine
        .run(&mut board, &schedule, &mut trace, 21)
        .expect("a run");
    assert_eq!(numbers(trace.rows(), State::Halt).len(), 10);
    assert_eq!(
        (machine.next(), machine.restart()),
        (Next::Acknowledge, Some(2))
    );
    machine
        .run(&mut board, &schedule, &mut trace, 11)
        .expect("a run");
    assert_eq!(trace.rows()[21].kind, Kind::AcknowledgeHalted);
    assert_eq!((machine.pc(), machine.sp()), (0x10, 0xFFFE));
}

#[test]
fn an_undefined_opcode_stops_for_good() {
    let (mut board, mut trace) = (Board::with_program(&[0x08]), Trace::new());
    let mut machine = Machine::cold();
    let ran = machine.run(&mut board, &Schedule::new(), &mut trace, 100);
    assert_eq!(ran, Ok(Ran::Stopped { states: 3 }));
    assert_eq!(
        (machine.pc(), machine.is_stopped(), trace.rows().len()),
        (1, true, 3)
    );
    let stopped = machine.clone();
    for states in [0, 1, 8_192] {
        let ran = machine.run(&mut board, &Schedule::new(), &mut trace, states);
        assert_eq!(ran, Ok(Ran::Stopped { states: 0 }));
        assert_eq!(machine, stopped);
    }
    assert_eq!(machine.step(0), Ok(Ran::Stopped { states: 0 }));
    assert_eq!(machine, stopped);
}

#[test]
fn a_run_in_parts_is_the_run_in_one() {
    let ((mut whole, mut board), mut trace) = (busy(), Trace::new());
    let ran = whole.run(&mut board, &restless(), &mut trace, 1_000);
    assert_eq!(ran, Ok(Ran::Done { states: 1_000 }));

    let ((mut parts, mut other), mut pieces) = (busy(), Trace::new());
    for states in [1, 2, 0, 97, 400, 500] {
        let ran = parts.run(&mut other, &restless(), &mut pieces, states);
        assert_eq!(ran, Ok(Ran::Done { states }));
    }
    assert_eq!(parts, whole);
    assert_eq!(other, board);
    assert_eq!(pieces.rows(), trace.rows());
}

/// Does the events of the state that comes next by hand.
fn move_lines(machine: &mut Machine, schedule: &Schedule) {
    let now = machine.clock().to_le_bytes();
    let events = schedule.as_bytes().chunks_exact(Schedule::EVENT);
    for event in events.filter(|event| event[..4] == now) {
        match event[4] {
            0 => machine.set_ready(event[5] == 1),
            1 => machine.set_hold(event[5] == 1),
            _ => machine.set_int((event[5] < 8).then_some(event[5])),
        }
    }
}

#[test]
fn stepping_with_a_board_as_bus_is_a_run() {
    let ((mut machine, mut board), schedule) = (busy(), restless());
    let (mut other, mut bus) = (machine.clone(), board.clone());
    let ran = machine.run(&mut board, &schedule, &mut Trace::new(), 1_000);
    assert_eq!(ran, Ok(Ran::Done { states: 1_000 }));
    for _ in 0..1_000 {
        move_lines(&mut other, &schedule);
        assert!(other.is_well_formed());
        let byte = bus.serve(other.request());
        assert_eq!(other.step(byte), Ok(Ran::Done { states: 1 }));
    }
    assert_eq!(other, machine);
    assert_eq!(bus, board);
}

#[test]
fn what_comes_next_and_what_it_asks() {
    let (mut machine, mut board) = (Machine::cold(), Board::with_program(&[0xD3, 0x05, 0x10]));
    machine.set_a(0x77);
    let mut asked = Vec::new();
    while !machine.is_stopped() {
        let (next, request) = (machine.next(), machine.request());
        if request != Request::Nothing {
            asked.push((next, request));
        }
        let byte = board.serve(request);
        assert_eq!(machine.step(byte), Ok(Ran::Done { states: 1 }));
    }
    let t3 = |cycle: u8| Next::Later { cycle, state: 3 };
    let (port, byte) = (5, 0x77);
    let expected = [
        (t3(1), Request::Read { address: 0 }),
        (t3(2), Request::Read { address: 1 }),
        (t3(3), Request::Output { port, byte }),
        (t3(1), Request::Read { address: 2 }),
    ];
    assert_eq!(asked, expected);
    assert_eq!((machine.clock(), board.outputs[5]), (13, 0x77));
}

#[test]
fn rows_are_the_bytes_of_the_trace() {
    let ((mut machine, mut board), mut trace) = (busy(), Trace::new());
    let (mut other, mut own) = (machine.clone(), board.clone());
    let schedule = restless();
    machine
        .run(&mut board, &schedule, &mut trace, 700)
        .expect("a run");
    let mut bytes = vec![0xEE; 8 * 700 + 5];
    let lent = Lent {
        memory: &mut own.memory[..],
        inputs: &own.inputs,
        outputs: &mut own.outputs,
        schedule: schedule.as_bytes(),
        trace: &mut bytes,
    };
    assert_eq!(other.run_lent(lent, 700), Ok(Ran::Done { states: 700 }));
    let rows: Vec<[u8; 8]> = trace.rows().iter().map(|r| r.to_bytes()).collect();
    assert_eq!(bytes[..5_600], rows.concat());
    assert_eq!(bytes[5_600..], [0xEE; 5]);
}

#[test]
fn the_clock_may_reach_its_last_value() {
    let (mut machine, mut board, mut trace) = (Machine::cold(), Board::new(), Trace::new());
    machine.set_clock(u32::MAX - 1);
    let mut run = |states| machine.run(&mut board, &Schedule::new(), &mut trace, states);
    assert_eq!(run(2), Err(Refusal::ClockRange));
    assert_eq!(run(1), Ok(Ran::Done { states: 1 }));
    assert_eq!(run(0), Ok(Ran::Done { states: 0 }));
    assert_eq!(machine.step(0), Err(Refusal::ClockRange));
    assert_eq!(trace.rows()[0].number, u32::MAX - 1);
}
