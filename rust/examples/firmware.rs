//! Runs a firmware image and prints its trace.
//!
//!     cargo run --release --example firmware
//!     cargo run --release --example firmware -- IMAGE STATES EVENT..
//!
//! IMAGE is a file that is loaded from address 0 on. An EVENT is a state number, a line and a value:
//! `12:ready:0`, `14:ready:1`, `20:hold:1`, `38:int:6` (up with restart number 6) or `50:int:8`
//! (down). Without arguments a small program runs whose loop is interrupted once.
//!
//! Each line has the state's number and name, the cycle's kind, address and data; the last one has
//! A, PC and the states done.

use fezgandom::{Board, Machine, Ran, Refusal, Schedule, Trace, MEMORY, MOST_STATES};
use std::error::Error;
use std::process::ExitCode;

/// Counts A down from 3 with interrupts enabled, gives port 1 what B became, and halts.
const LOOP: [u8; 15] = [
    0x31, 0x00, 0x01, // LXI SP,0100
    0x3E, 0x03, // MVI A,03
    0xFB, // EI
    0x3D, // DCR A
    0xC2, 0x06, 0x00, // JNZ 0006
    0x78, // MOV A,B
    0xD3, 0x01, // OUT 01
    0xF3, // DI
    0x76, // HLT
];

/// What restart 6 does: PUSH PSW, INR B, POP PSW, RET.
const SERVICE: [u8; 4] = [0xF5, 0x04, 0xF1, 0xC9];

/// An image, a schedule and a number of states.
struct Job {
    board: Board,
    schedule: Schedule,
    states: u32,
}

/// The built-in program, with two waits in its first fetch and INT up in state 38.
fn built_in() -> Job {
    let mut board = Board::with_program(&LOOP);
    board.put(0x30, &SERVICE);
    let waits = Schedule::new().at(1).ready(false).at(3).ready(true);
    Job {
        board,
        schedule: waits.at(38).int(6),
        states: 150,
    }
}

/// The job that the arguments name.
fn named(image: &str, states: &str, events: &[String]) -> Result<Job, Box<dyn Error>> {
    let image = std::fs::read(image)?;
    if image.len() > MEMORY {
        return Err("the image is longer than memory".into());
    }
    Ok(Job {
        board: Board::with_program(&image),
        schedule: events.iter().try_fold(Schedule::new(), add)?,
        states: states.parse()?,
    })
}

/// The schedule with one more event. Whether it is in order, the run says.
fn add(schedule: Schedule, event: &String) -> Result<Schedule, Box<dyn Error>> {
    let parts: Vec<&str> = event.split(':').collect();
    let [state, line, value] = parts[..] else {
        return Err(format!("{event} is not STATE:LINE:VALUE").into());
    };
    let line = match line {
        "ready" => 0,
        "hold" => 1,
        "int" => 2,
        _ => return Err(format!("{line} is not ready, hold or int").into()),
    };
    Ok(schedule.at(state.parse()?).event(line, value.parse()?))
}

/// Does the job in runs of at most 8,192 states, printing each run's rows. Ends early at a stop.
fn run(job: &mut Job) -> Result<Machine, Refusal> {
    let mut machine = Machine::cold();
    let mut trace = Trace::new();
    while machine.clock() < job.states {
        let states = MOST_STATES.min(job.states - machine.clock());
        let ran = machine.run(&mut job.board, &job.schedule, &mut trace, states)?;
        print!("{trace}");
        trace.clear();
        if let Ran::Stopped { .. } = ran {
            break;
        }
    }
    Ok(machine)
}

/// Does what the arguments say, and prints the last line.
fn firmware(words: &[String]) -> Result<(), Box<dyn Error>> {
    let mut job = match words {
        [] => built_in(),
        [image, states, events @ ..] => named(image, states, events)?,
        _ => return Err("firmware [IMAGE STATES EVENT..]".into()),
    };
    let machine = run(&mut job)?;
    let (a, pc, states) = (machine.a(), machine.pc(), machine.clock());
    println!("A {a:02X} PC {pc:04X} STATES {states}");
    Ok(())
}

fn main() -> ExitCode {
    let words: Vec<String> = std::env::args().skip(1).collect();
    match firmware(&words) {
        Ok(()) => ExitCode::SUCCESS,
        Err(error) => {
            eprintln!("{error}");
            ExitCode::FAILURE
        }
    }
}
