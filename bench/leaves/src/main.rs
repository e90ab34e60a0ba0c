//! `bench-leaves SIDE OPERATION`: a million calls of an operation, and the checksum of its answers.
//! SIDE is proved, plain or nothing, the same loop without a call.

mod plain;

use leaves::raw::*;
use plain::*;
use std::hint::black_box;

const CALLS: u32 = 1_000_000;

/// Numbers of 48 bits that vary from call to call.
fn next(seed: &mut u64) -> u64 {
    *seed = seed
        .wrapping_mul(6_364_136_223_846_793_005)
        .wrapping_add(1_442_695_040_888_963_407);
    *seed >> 16
}

/// Prints the checksum of what a function answers; `call` makes its arguments from a varying
/// number. The loop is one piece of code for both sides: they differ in the function alone.
#[inline(never)]
fn measure<F: Copy>(function: Option<F>, call: impl Fn(F, u64) -> u64) {
    let mut seed = 1;
    let mut sum = 0u64;
    for _ in 0..CALLS {
        let x = black_box(next(&mut seed));
        let answer = match function {
            Some(f) => call(f, x),
            None => x,
        };
        sum = (sum ^ answer).wrapping_mul(0x0000_0100_0000_01B3);
    }
    println!("{sum:016x}");
}

/// The function of a side.
fn choose<F>(side: &str, proved: F, plain: F) -> Option<F> {
    match side {
        "proved" => black_box(Some(proved)),
        "plain" => black_box(Some(plain)),
        "nothing" => black_box(None),
        _ => panic!("a side is proved, plain or nothing"),
    }
}

/// Operation y of ADD to CMP.
fn arithmetic(side: &str, y: u8) {
    type Function = extern "C" fn(u8, u8, u8, u8) -> u16;
    let function: Option<Function> = choose(side, leaf_arithmetic, plain_arithmetic);
    measure(function, |f, x| {
        f(y, x as u8, (x >> 8) as u8, (x >> 16) as u8).into()
    });
}

/// Operation y of RLC to CMC.
fn accumulator(side: &str, y: u8) {
    type Function = extern "C" fn(u8, u8, u8) -> u16;
    let function: Option<Function> = choose(side, leaf_accumulator, plain_accumulator);
    measure(function, |f, x| f(y, x as u8, (x >> 8) as u8).into());
}

fn inr(side: &str) {
    type Function = extern "C" fn(u8, u8) -> u16;
    let function: Option<Function> = choose(side, leaf_inr, plain_inr);
    measure(function, |f, x| f(x as u8, (x >> 8) as u8).into());
}

fn code(side: &str) {
    type Function = extern "C" fn(u64, u8) -> u8;
    let function: Option<Function> = choose(side, leaf_code, plain_code);
    measure(function, |f, x| f(x, (x >> 45) as u8).into());
}

/// What a cycle's code alone gives.
fn of_code(side: &str, proved: extern "C" fn(u8) -> u8, plain: extern "C" fn(u8) -> u8) {
    measure(choose(side, proved, plain), |f, x| f(x as u8).into());
}

fn main() {
    let words: Vec<String> = std::env::args().collect();
    assert!(words.len() == 3, "bench-leaves SIDE OPERATION");
    let side = words[1].as_str();
    match words[2].as_str() {
        "adc" => arithmetic(side, 1),
        "sub" => arithmetic(side, 2),
        "ana" => arithmetic(side, 4),
        "ral" => accumulator(side, 2),
        "daa" => accumulator(side, 4),
        "inr" => inr(side),
        "code" => code(side),
        "kind" => of_code(side, leaf_kind, plain_kind),
        "states" => of_code(side, leaf_states, plain_states),
        _ => panic!("an operation is adc, sub, ana, ral, daa, inr, code, kind or states"),
    }
}
