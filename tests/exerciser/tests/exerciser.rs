//! Every case of the published exerciser as one instruction through the public run.

use exerciser::{groups, states, Case, Left};
use fezgandom::{Board, Flags, Lent, Machine, Next, Ran};

/// Where an instruction lies: out of the way of all that the cases read and write.
const INSTRUCTION: u16 = 0x0200;

/// Where the memory operand lies.
const OPERAND: u16 = 0x0103;

/// A machine and its board, used for case after case.
struct Bench {
    cold: Machine,
    board: Board,
    trace: [u8; 8 * 18],
    states: Vec<u32>,
}

impl Bench {
    fn new() -> Bench {
        Bench {
            cold: Machine::cold(),
            board: Board::new(),
            trace: [0; 8 * 18],
            states: states(),
        }
    }

    /// The machine with a case's registers, the instruction next.
    fn machine(&self, case: &Case) -> Machine {
        let mut machine = self.cold.clone();
        machine.set_a(case.a);
        machine.set_flags(Flags::from_byte(case.flags));
        machine.set_bc(case.bc);
        machine.set_de(case.de);
        machine.set_hl(case.hl);
        machine.set_sp(case.sp);
        machine.set_pc(INSTRUCTION);
        machine
    }

    /// Runs a case for exactly the states of its instruction: what it leaves.
    fn leaves(&mut self, case: &Case) -> Left {
        self.board.put(INSTRUCTION, &case.instruction);
        self.board.put(OPERAND, &case.memory);
        let mut machine = self.machine(case);
        let states = self.states[usize::from(case.instruction[0])];
        let lent = Lent {
            memory: &mut self.board.memory[..],
            inputs: &self.board.inputs,
            outputs: &mut self.board.outputs,
            schedule: &[],
            trace: &mut self.trace,
        };
        let ran = machine.run_lent(lent, states);
        assert_eq!(ran, Ok(Ran::Done { states }), "{case:02X?}");
        assert_eq!(machine.next(), Next::Fetch, "{case:02X?}");
        self.left(&machine)
    }

    /// What the checksum looks at.
    fn left(&self, machine: &Machine) -> Left {
        let at = usize::from(OPERAND);
        Left {
            memory: [self.board.memory[at], self.board.memory[at + 1]],
            hl: machine.hl(),
            de: machine.de(),
            bc: machine.bc(),
            flags: machine.flag_byte(),
            a: machine.a(),
            sp: machine.sp(),
        }
    }
}

#[test]
fn groups_give_the_published_checksums() {
    let mut bench = Bench::new();
    let (mut number, mut all) = (0, 0);
    for group in groups() {
        let (sum, cases) = group.checksum(|case| bench.leaves(case));
        let (name, published) = (group.name, group.published);
        assert_eq!(
            sum, published,
            "{name}: {sum:08x}, published {published:08x}"
        );
        number += 1;
        all += cases;
    }
    assert_eq!((number, all), (24, 179_447));
}
