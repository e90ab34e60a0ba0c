//! A plain Rust stepper of document 01's rules, written apart from the proved code: one state at a
//! time over a machine that changes in place, with the tests of a run's arguments and its trace.

use crate::arithmetic::{accumulator, arithmetic, dcr, inr, met};
use crate::tables::{KIND, PLAN, STATUS};

const A: usize = 7;
const H: usize = 4;
const L: usize = 5;
const HALT: u8 = 0x76;
const NO_INT: u8 = 8;

/// What comes next: a cycle and its state, where state 6 is a wait.
#[derive(Clone, Copy)]
enum Next {
    Fetch,
    Within(u8, u8),
    Hold(u8),
    Halt,
    Stop,
}

struct Machine {
    r: [u8; 8],
    f: u8,
    sp: u16,
    pc: u16,
    inte: bool,
    clock: u32,
    ready: u8,
    hold: u8,
    int: u8,
    op: u8,
    /// 0 in no acknowledge, 1 in one, 2 in one that ends a halt.
    acknowledge: u8,
    restart: u8,
    kept: [u8; 4],
    next: Next,
}

impl Machine {
    fn cold() -> Machine {
        Machine {
            r: [0; 8],
            f: 2,
            sp: 0,
            pc: 0,
            inte: false,
            clock: 0,
            ready: 1,
            hold: 0,
            int: NO_INT,
            op: 0,
            acknowledge: 0,
            restart: 0,
            kept: [0; 4],
            next: Next::Fetch,
        }
    }

    #[inline]
    fn pair(&self, p: u8) -> u16 {
        match usize::from(p & 3) {
            3 => self.sp,
            i => u16::from_be_bytes([self.r[2 * i], self.r[2 * i + 1]]),
        }
    }

    #[inline]
    fn set_pair(&mut self, p: u8, v: u16) {
        match usize::from(p & 3) {
            3 => self.sp = v,
            i => [self.r[2 * i], self.r[2 * i + 1]] = v.to_be_bytes(),
        }
    }

    #[inline]
    fn word(&self) -> u16 {
        u16::from_le_bytes([self.kept[0], self.kept[1]])
    }

    /// The code of a cycle, 0 where the instruction has no such cycle.
    #[inline]
    fn code(&self, cycle: u8) -> u8 {
        if cycle == 1 {
            return 18 + self.acknowledge;
        }
        if cycle > 5 {
            return 0;
        }
        let z = self.op & 7;
        let asks = self.op >> 6 == 3 && (z == 0 || z == 4 && cycle > 3);
        if asks && !met(self.f, self.op >> 3 & 7) {
            return 0;
        }
        (PLAN[usize::from(self.op)] >> (5 * (cycle - 1)) & 31) as u8
    }

    fn address(&self, code: u8, state: u8) -> u16 {
        match code {
            1 | 18 if state <= 2 => self.pc,
            1 | 18 => self.pc.wrapping_sub(1),
            2 | 3 => self.pointer(),
            4 | 6 => self.word(),
            5 | 7 => self.word().wrapping_add(1),
            8 | 17 => self.sp,
            9 | 16 => self.sp.wrapping_add(1),
            10 => self.sp.wrapping_sub(1),
            11 => self.sp.wrapping_sub(2),
            12 | 13 => 257 * u16::from(self.kept[0]),
            _ => self.pc,
        }
    }

    /// BC or DE for STAX and LDAX, else HL.
    fn pointer(&self) -> u16 {
        if self.op & 0xC7 == 0x02 {
            self.pair(self.op >> 4)
        } else {
            self.pair(2)
        }
    }

    /// The byte that a cycle writes.
    fn written(&self, code: u8) -> u8 {
        match code {
            3 => match self.op {
                0x02 | 0x12 => self.r[A],
                0x34 => inr(self.kept[0], self.f).0,
                0x35 => dcr(self.kept[0], self.f).0,
                0x36 => self.kept[0],
                op => self.r[usize::from(op & 7)],
            },
            6 if self.op == 0x22 => self.r[L],
            7 | 16 => self.r[H],
            17 => self.r[L],
            10 => self.pushed().to_be_bytes()[0],
            11 => self.pushed().to_be_bytes()[1],
            _ => self.r[A],
        }
    }

    fn pushed(&self) -> u16 {
        if self.op & 0xCF != 0xC5 {
            self.pc
        } else if self.op == 0xF5 {
            u16::from_be_bytes([self.r[A], self.f])
        } else {
            self.pair(self.op >> 4 & 3)
        }
    }

    /// What an instruction does at its end.
    fn execute(&mut self) {
        let y = self.op >> 3 & 7;
        let z = self.op & 7;
        match self.op >> 6 {
            0 => self.execute_low(y, z),
            1 if self.op == HALT || y == 6 => {}
            1 => self.r[usize::from(y)] = self.source(z),
            2 => self.operate(y, self.source(z)),
            _ => self.execute_high(y, z),
        }
    }

    fn source(&self, z: u8) -> u8 {
        if z == 6 {
            self.kept[0]
        } else {
            self.r[usize::from(z)]
        }
    }

    fn operate(&mut self, y: u8, v: u8) {
        (self.r[A], self.f) = arithmetic(y, self.r[A], self.f, v);
    }

    fn execute_low(&mut self, y: u8, z: u8) {
        let p = y >> 1;
        let i = usize::from(y);
        match z {
            1 if y & 1 == 0 => self.set_pair(p, self.word()),
            1 => {
                let sum = u32::from(self.pair(2)) + u32::from(self.pair(p));
                self.set_pair(2, sum as u16);
                self.f = self.f & !1 | (sum >> 16) as u8;
            }
            2 => match y {
                1 | 3 => self.r[A] = self.kept[0],
                5 => (self.r[L], self.r[H]) = (self.kept[2], self.kept[3]),
                7 => self.r[A] = self.kept[2],
                _ => {}
            },
            3 if y & 1 == 0 => self.set_pair(p, self.pair(p).wrapping_add(1)),
            3 => self.set_pair(p, self.pair(p).wrapping_sub(1)),
            4 if y == 6 => self.f = inr(self.kept[0], self.f).1,
            4 => (self.r[i], self.f) = inr(self.r[i], self.f),
            5 if y == 6 => self.f = dcr(self.kept[0], self.f).1,
            5 => (self.r[i], self.f) = dcr(self.r[i], self.f),
            6 if y != 6 => self.r[i] = self.kept[0],
            7 => (self.r[A], self.f) = accumulator(y, self.r[A], self.f),
            _ => {}
        }
    }

    fn execute_high(&mut self, y: u8, z: u8) {
        match z {
            0 if met(self.f, y) => self.leave(),
            1 => match y {
                1 => self.leave(),
                5 => self.pc = self.pair(2),
                7 => self.sp = self.pair(2),
                _ => self.pop(y >> 1),
            },
            2 if met(self.f, y) => self.pc = self.word(),
            3 => match y {
                0 => self.pc = self.word(),
                3 => self.r[A] = self.kept[1],
                4 => self.set_pair(2, self.word()),
                5 => {
                    self.r.swap(2, H);
                    self.r.swap(3, L);
                }
                6 => self.inte = false,
                7 => self.inte = true,
                _ => {}
            },
            4 if met(self.f, y) => self.enter(self.word()),
            5 if y & 1 == 0 => self.sp = self.sp.wrapping_sub(2),
            5 => self.enter(self.word()),
            6 => self.operate(y, self.kept[0]),
            7 => self.enter(u16::from(8 * y)),
            _ => {}
        }
    }

    fn enter(&mut self, target: u16) {
        self.pc = target;
        self.sp = self.sp.wrapping_sub(2);
    }

    fn leave(&mut self) {
        self.pc = self.word();
        self.sp = self.sp.wrapping_add(2);
    }

    fn pop(&mut self, p: u8) {
        self.sp = self.sp.wrapping_add(2);
        if p == 3 {
            self.r[A] = self.kept[1];
            self.f = self.kept[0] & 0xD7 | 2;
        } else {
            self.set_pair(p, self.word());
        }
    }

    /// After an instruction: an acknowledge, a halt or a fetch.
    fn after_instruction(&mut self) {
        let halted = self.op == HALT;
        let taken = self.inte && self.int < NO_INT && self.op != 0xFB;
        self.op = 0;
        self.kept = [0; 4];
        if taken {
            self.acknowledge = if halted { 2 } else { 1 };
            self.restart = self.int;
            self.int = NO_INT;
            self.inte = false;
            self.next = Next::Within(1, 1);
        } else {
            self.acknowledge = 0;
            self.restart = 0;
            self.next = if halted { Next::Halt } else { Next::Fetch };
        }
    }

    fn after_cycle(&mut self, cycle: u8, more: bool) {
        if more {
            self.next = Next::Within(cycle + 1, 1);
        } else {
            self.after_instruction();
        }
    }

    fn end_cycle(&mut self, cycle: u8) {
        let more = self.code(cycle + 1) != 0;
        if !more {
            self.execute();
        }
        if self.hold == 1 {
            self.next = Next::Hold(cycle);
        } else {
            self.after_cycle(cycle, more);
        }
    }

    fn levels(&self) -> u8 {
        u8::from(self.ready == 1)
            | u8::from(self.hold == 1) << 1
            | u8::from(self.int < NO_INT) << 2
            | u8::from(self.inte) << 3
    }

    /// One state: the row that it leaves, and what comes next.
    fn state(&mut self, memory: &mut [u8], inputs: &[u8], outputs: &mut [u8], row: &mut [u8]) {
        let (state, cycle) = match self.next {
            Next::Fetch => (1, 1),
            Next::Within(c, t) => (t, c),
            Next::Hold(c) => (7, c),
            Next::Halt => (8, 2),
            Next::Stop => (0, 0),
        };
        let code = if state == 8 || state == 7 && cycle == 2 && self.op == HALT {
            14
        } else {
            self.code(cycle)
        };
        let address = if (state <= 3 || state == 6) && code != 15 {
            self.address(code, state)
        } else {
            0
        };
        let port = usize::from(address & 255);
        let mut byte = 0;
        if state == 3 {
            byte = match code {
                1 | 2 | 4 | 5 | 8 | 9 | 18 => memory[usize::from(address)],
                12 => inputs[port],
                19 | 20 => 0xC7 | self.restart << 3,
                14 | 15 => 0,
                _ => self.written(code),
            };
            match code {
                3 | 6 | 7 | 10 | 11 | 16 | 17 => memory[usize::from(address)] = byte,
                13 => outputs[port] = byte,
                _ => {}
            }
        }
        let kind = KIND[usize::from(code & 31)];
        let status = if state == 1 {
            STATUS[usize::from(kind & 15)]
        } else {
            0
        };
        let [low, high] = address.to_le_bytes();
        row.copy_from_slice(&[state, kind, low, high, byte, status, cycle, self.levels()]);
        self.step(cycle, code, byte);
        self.clock = self.clock.wrapping_add(1);
    }

    fn step(&mut self, cycle: u8, code: u8, byte: u8) {
        match self.next {
            Next::Stop => {}
            Next::Fetch | Next::Within(_, 1) => self.next = Next::Within(cycle, 2),
            Next::Within(_, state @ (2 | 6)) => {
                if state == 2 && (code == 1 || code == 18) {
                    self.pc = self.pc.wrapping_add(1);
                }
                let waits = self.ready == 0 && code != 14 && code != 15;
                self.next = Next::Within(cycle, if waits { 6 } else { 3 });
            }
            Next::Within(1, 3) => self.decode(byte),
            Next::Within(_, 3) => {
                if matches!(code, 1 | 2 | 4 | 5 | 8 | 9 | 12) {
                    self.kept[usize::from((cycle - 2) & 3)] = byte;
                }
                if code == 17 {
                    self.next = Next::Within(cycle, 4);
                } else {
                    self.end_cycle(cycle);
                }
            }
            Next::Within(_, 4) => {
                let long = PLAN[usize::from(self.op)] & 31 == 5;
                if code == 17 || self.acknowledge > 0 || long {
                    self.next = Next::Within(cycle, 5);
                } else {
                    self.end_cycle(cycle);
                }
            }
            Next::Within(_, _) => self.end_cycle(cycle),
            Next::Hold(_) => {
                if self.hold != 1 {
                    let more = self.code(cycle + 1) != 0;
                    self.after_cycle(cycle, more);
                }
            }
            Next::Halt => {
                self.op = HALT;
                if self.hold == 1 {
                    self.next = Next::Hold(2);
                } else {
                    self.after_instruction();
                }
            }
        }
    }

    fn decode(&mut self, byte: u8) {
        if PLAN[usize::from(byte)] == 0 {
            self.op = 0;
            self.acknowledge = 0;
            self.restart = 0;
            self.next = Next::Stop;
        } else {
            self.op = byte;
            self.next = Next::Within(1, 4);
        }
    }
}

/// The state number of an event.
fn number(s: &[u8], k: usize) -> u32 {
    u32::from_le_bytes([s[6 * k], s[6 * k + 1], s[6 * k + 2], s[6 * k + 3]])
}

fn schedule_refused(s: &[u8]) -> bool {
    if s.len() % 6 != 0 || s.len() > 6_000 {
        return true;
    }
    let value = |k: usize| match s[6 * k + 4] {
        0 | 1 => s[6 * k + 5] < 2,
        line => line == 2 && s[6 * k + 5] < 9,
    };
    let order = |k: usize| (number(s, k - 1), s[6 * k - 2]) < (number(s, k), s[6 * k + 4]);
    let events = s.len() / 6;
    !(0..events).all(value) || !(1..events).all(order)
}

/// A run of n states, or fewer where the machine stops; none where an argument is refused.
#[inline(never)]
fn run(
    m: &mut Machine,
    memory: &mut [u8],
    inputs: &[u8],
    outputs: &mut [u8],
    s: &[u8],
    trace: &mut [u8],
    n: usize,
) -> usize {
    let sizes = memory.len() == 65_536 && inputs.len() == 256 && outputs.len() == 256;
    if !sizes || schedule_refused(s) || n > 8_192 || trace.len() < 8 * n {
        return 0;
    }
    if (u32::MAX - m.clock) < n as u32 {
        return 0;
    }
    let events = s.len() / 6;
    let mut from = 0;
    for k in 0..n {
        if let Next::Stop = m.next {
            return k;
        }
        while from < events && number(s, from) <= m.clock {
            if number(s, from) == m.clock {
                let value = s[6 * from + 5];
                match s[6 * from + 4] {
                    0 => m.ready = value,
                    1 => m.hold = value,
                    _ => m.int = value,
                }
            }
            from += 1;
        }
        m.state(memory, inputs, outputs, &mut trace[8 * k..8 * k + 8]);
    }
    n
}

/// So many runs of so many states from a cold machine: the states done in all.
pub fn rounds(
    calls: u32,
    states: u32,
    memory: &mut [u8],
    inputs: &[u8],
    outputs: &mut [u8],
    s: &[u8],
    trace: &mut [u8],
) -> u64 {
    let mut m = Machine::cold();
    (0..calls)
        .map(|_| run(&mut m, memory, inputs, outputs, s, trace, states as usize) as u64)
        .sum()
}
