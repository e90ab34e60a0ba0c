//! `bench-simh FOLDER`: instructions a second of the proved run, of the plain stepper and of simh's `altair` and `altairz80`, for
//! the programs of bench/run. Each time is processor time, the shortest of five, the four taken in turns; simh's is less its
//! start. The program's memory goes to a file in the folder, for simh to load.

#[path = "../../run/src/arithmetic.rs"]
mod arithmetic;
#[path = "../../run/src/plain.rs"]
mod plain;
#[path = "../../run/src/programs.rs"]
#[allow(dead_code)]
mod programs;
#[path = "../../run/src/proved.rs"]
mod proved;
#[path = "../../run/src/tables.rs"]
mod tables;

use std::io::Write;
use std::path::Path;
use std::process::{Command, Stdio};

const STATES: u32 = 8_192;
const CALLS: u32 = 6_000;
const STEPS: u32 = 100_000_000;

/// Runs in a row: how many, of how many states, over memory, inputs, outputs, schedule and trace; the states done in all.
type Rounds = fn(u32, u32, &mut [u8], &[u8], &mut [u8], &[u8], &mut [u8]) -> u64;

/// Processor time of this process and of the children that it has waited for, in seconds. Linux counts it in hundredths.
fn seconds() -> f64 {
    let text = std::fs::read_to_string("/proc/self/stat").expect("Linux");
    let (_, words) = text.rsplit_once(") ").expect("a name in brackets");
    let words = words.split(' ').skip(11).take(4);
    words.map(|w| w.parse::<f64>().expect("ticks")).sum::<f64>() / 100.0
}

/// So many runs from a cold machine on: the trace of the last, and the seconds of all.
fn go(side: Rounds, calls: u32, program: &[u8]) -> (Vec<u8>, f64) {
    let mut memory = program.to_vec();
    let mut trace = vec![0; 8 * STATES as usize];
    let start = seconds();
    let done = side(
        calls,
        STATES,
        &mut memory,
        &[0; 256],
        &mut [0; 256],
        &[],
        &mut trace,
    );
    assert!(done == u64::from(calls) * u64::from(STATES));
    (trace, seconds() - start)
}

/// States of an instruction, counted in the trace of the first fifty runs: each instruction has one fetch with one T1.
fn states_an_instruction(program: &[u8]) -> f64 {
    let runs = 50;
    let fetches = |call| {
        let (trace, _) = go(proved::rounds, call, program);
        trace.chunks(8).filter(|row| row[..2] == [1, 1]).count() as f64
    };
    f64::from(runs * STATES) / (1..=runs).map(fetches).sum::<f64>()
}

/// Seconds that simh takes to start, load a file and do so many instructions.
fn simh(command: &str, file: &Path, steps: u32) -> f64 {
    let at = if command == "altairz80" { " 0" } else { "" };
    let text = format!(
        "deposit pc 0\nload {}{at}\ndeposit pc 0\nstep {steps}\nquit\n",
        file.display()
    );
    let start = seconds();
    let mut child = Command::new(command)
        .stdin(Stdio::piped())
        .stdout(Stdio::piped())
        .spawn()
        .expect("simh");
    let mut input = child.stdin.take().expect("its input");
    input.write_all(text.as_bytes()).expect("commands taken");
    drop(input);
    let output = child.wait_with_output().expect("its end").stdout;
    let seconds = seconds() - start;
    let text = String::from_utf8_lossy(&output);
    assert!(text.contains("Step expired"), "{command} says: {text}");
    seconds
}

/// The shortest of five times of each, in turns.
fn shortest<const N: usize>(times: [&dyn Fn() -> f64; N]) -> [f64; N] {
    let mut best = [f64::MAX; N];
    for _ in 0..5 {
        for (best, time) in best.iter_mut().zip(times) {
            *best = best.min(time());
        }
    }
    best
}

fn main() {
    let folder = std::env::args().nth(1).expect("bench-simh FOLDER");
    println!("million instructions a second");
    println!("program  states each  proved   plain  altair  altairz80  altair to proved");
    for name in ["mix", "dcr", "int"] {
        let program = programs::program(name);
        let file = Path::new(&folder).join(name);
        std::fs::write(&file, &program).expect("a file");
        let each = states_an_instruction(&program);
        let [proved, plain, altair, altair_start, z80, z80_start] = shortest([
            &|| go(proved::rounds, CALLS, &program).1,
            &|| go(plain::rounds, CALLS, &program).1,
            &|| simh("altair", &file, STEPS),
            &|| simh("altair", &file, 1),
            &|| simh("altairz80", &file, STEPS),
            &|| simh("altairz80", &file, 1),
        ]);
        let instructions = f64::from(CALLS) * f64::from(STATES) / each;
        let [proved, plain] = [proved, plain].map(|t| instructions / t / 1e6);
        let [altair, z80] =
            [altair - altair_start, z80 - z80_start].map(|t| f64::from(STEPS) / t / 1e6);
        println!(
            "{name:7} {each:12.2} {proved:7.1} {plain:7.1} {altair:7.1} {z80:10.1} {:17.1}",
            altair / proved
        );
    }
}
