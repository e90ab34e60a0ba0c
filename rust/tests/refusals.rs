//! Every refusal by its number, and that it changes nothing.

use fezgandom::{ffi, Board, Lent, Machine, Next, Ran, Refusal, Schedule, Trace, MEMORY, SAVED};

/// The arguments of a run, good until one is changed.
struct Case {
    machine: Machine,
    memory: Vec<u8>,
    inputs: Vec<u8>,
    outputs: Vec<u8>,
    schedule: Vec<u8>,
    trace: Vec<u8>,
    states: u32,
}

impl Case {
    fn good() -> Case {
        Case {
            machine: Machine::cold(),
            memory: vec![0x3C; MEMORY],
            inputs: vec![1; 256],
            outputs: vec![2; 256],
            schedule: vec![],
            trace: vec![3; 80],
            states: 10,
        }
    }

    fn run(&mut self) -> Result<Ran, Refusal> {
        let lent = Lent {
            memory: &mut self.memory,
            inputs: &self.inputs,
            outputs: &mut self.outputs,
            schedule: &self.schedule,
            trace: &mut self.trace,
        };
        self.machine.run_lent(lent, self.states)
    }
}

/// The number with which a run is refused that differs from a good one, after a look that nothing
/// has changed. 0 where it is done.
fn number(change: impl Fn(&mut Case)) -> u8 {
    let (mut case, mut before) = (Case::good(), Case::good());
    change(&mut case);
    change(&mut before);
    let Err(refusal) = case.run() else { return 0 };
    assert_eq!(case.machine, before.machine);
    assert_eq!(case.memory, before.memory);
    assert_eq!(case.outputs, before.outputs);
    assert_eq!(case.trace, before.trace);
    refusal.number()
}

#[test]
fn sizes_of_what_is_lent() {
    assert_eq!(number(|_| ()), 0);
    assert_eq!(number(|c| c.memory.truncate(MEMORY - 1)), 1);
    assert_eq!(number(|c| c.memory.push(0)), 1);
    assert_eq!(number(|c| c.inputs.truncate(255)), 2);
    assert_eq!(number(|c| c.outputs.push(0)), 2);
    assert_eq!(number(|c| c.trace.truncate(79)), 7);
    assert_eq!(number(|c| c.trace.push(0)), 0);
}

#[test]
fn schedules() {
    let refused = |bytes: Vec<u8>| number(move |c| c.schedule = bytes.clone());
    let built = |s: Schedule| refused(s.as_bytes().to_vec());
    assert_eq!(refused(vec![0; 5]), 3);
    assert_eq!(refused(vec![0; 6_006]), 3);
    assert_eq!(built(Schedule::new().event(3, 0)), 4);
    assert_eq!(built(Schedule::new().event(0, 2)), 4);
    assert_eq!(built(Schedule::new().event(1, 2)), 4);
    assert_eq!(built(Schedule::new().int(9)), 4);
    assert_eq!(built(Schedule::new().int(7).at(1).int_down()), 0);
    assert_eq!(
        built(Schedule::new().at(9).ready(true).at(8).ready(true)),
        5
    );
    assert_eq!(built(Schedule::new().hold(true).ready(true)), 5);
    assert_eq!(built(Schedule::new().ready(true).ready(true)), 5);
    let last_is_unlisted = Schedule::new().at(2).ready(true).at(1).event(9, 9);
    assert_eq!(built(last_is_unlisted), 4);
    let thousand = (0..1_000).fold(Schedule::new(), |s, k| s.at(k).ready(true));
    assert_eq!(built(thousand.clone()), 0);
    assert_eq!(built(thousand.at(1_000).ready(true)), 3);
}

#[test]
fn states_asked() {
    let asked = |states: u32| {
        number(move |c| {
            c.states = states;
            c.trace.resize(8 * 8_193, 3);
        })
    };
    assert_eq!(asked(8_192), 0);
    assert_eq!(asked(8_193), 6);
    assert_eq!(asked(u32::MAX), 6);
    assert_eq!(number(|c| c.machine.set_clock(u32::MAX - 10)), 0);
    assert_eq!(number(|c| c.machine.set_clock(u32::MAX - 9)), 9);
}

/// The cold machine with one byte of its record changed.
fn cold_with(place: usize, byte: u8) -> Machine {
    let mut record = *Machine::cold().as_bytes();
    record[place] = byte;
    Machine::from_bytes(record)
}

#[test]
fn ill_formed_machines() {
    let listed = [(12, 2), (13, 6), (18, 2), (19, 2), (20, 9), (27, 3)];
    let fixed_bits = [(1, 0x00), (1, 0x0A), (1, 0x22)];
    let zeros = (21..64)
        .filter(|&place| place != 27)
        .map(|place| (place, 1));
    for (place, byte) in listed.into_iter().chain(fixed_bits).chain(zeros) {
        let machine = cold_with(place, byte);
        assert!(!machine.is_well_formed(), "byte {place} is {byte}");
        assert_eq!(number(|c| c.machine = machine.clone()), 8);
    }
    assert_eq!(cold_with(13, 6).next(), Next::Unlisted(6));
}

#[test]
fn odd_machines_that_no_rule_names() {
    let acknowledge = cold_with(27, 1);
    assert!(acknowledge.is_well_formed());
    assert_eq!(acknowledge.next(), Next::Acknowledge);
    assert_eq!(number(|c| c.machine = acknowledge.clone()), 0);
}

#[test]
fn the_lowest_number_is_given() {
    let all_wrong = |c: &mut Case| {
        c.machine.set_flag_byte(0);
        c.machine.set_clock(u32::MAX);
        c.memory.clear();
        c.inputs.clear();
        c.schedule = vec![9; 13];
        c.trace.clear();
        c.states = 9_000;
    };
    let mends: [fn(&mut Case); 8] = [
        |c| c.memory = vec![0; MEMORY],
        |c| c.inputs = vec![0; 256],
        |c| c.schedule = vec![9; 12],
        |c| c.schedule = [[1, 0, 0, 0, 0, 0], [0, 0, 0, 0, 0, 0]].concat(),
        |c| c.schedule.truncate(6),
        |c| c.states = 8_192,
        |c| c.trace = vec![0; 65_536],
        |c| c.machine.set_flag_byte(2),
    ];
    for mended in 0..=mends.len() {
        let given = number(|c| {
            all_wrong(c);
            mends[..mended].iter().for_each(|mend| mend(c));
        });
        assert_eq!(usize::from(given), mended + 1);
    }
}

#[test]
fn saving() {
    let (machine, board) = (Machine::cold(), Board::new());
    let save = |machine: &Machine, memory: &[u8], outputs: &[u8], size: usize| {
        let mut out = vec![7; size];
        let answer = machine.save_lent(memory, outputs, &mut out);
        assert!(answer.is_ok() || out == vec![7; size]);
        answer.map_err(Refusal::number)
    };
    let mut inside = machine.clone();
    inside.step(0).expect("a state");
    let mut broken = inside.clone();
    broken.set_flag_byte(0);
    assert_eq!(
        save(&machine, &board.memory[..], &board.outputs, SAVED),
        Ok(())
    );
    assert_eq!(save(&broken, &[], &[], 0), Err(1));
    assert_eq!(save(&broken, &board.memory[..], &[], 0), Err(2));
    assert_eq!(save(&broken, &board.memory[..], &board.outputs, 0), Err(8));
    assert_eq!(save(&inside, &board.memory[..], &board.outputs, 0), Err(11));
    assert_eq!(
        save(&machine, &board.memory[..], &board.outputs, 0),
        Err(14)
    );
}

#[test]
fn loading() {
    let mut saved = Machine::cold().save(&Board::new()).expect("a saved form");
    let load = |saved: &[u8], memory: usize, outputs: usize| {
        let mut machine = Machine::from_bytes([9; 64]);
        let (mut memory, mut outputs) = (vec![5; memory], vec![5; outputs]);
        let answer = machine.load_lent(saved, &mut memory, &mut outputs);
        let as_before = machine == Machine::from_bytes([9; 64])
            && memory.iter().chain(&outputs).all(|&byte| byte == 5);
        assert!(answer.is_ok() || as_before);
        answer.map_err(Refusal::number)
    };
    assert_eq!(load(&saved, MEMORY, 256), Ok(()));
    assert_eq!(load(&saved, 0, 0), Err(1));
    assert_eq!(load(&saved, MEMORY, 0), Err(2));
    assert_eq!(load(&saved[1..], 0, 0), Err(12));
    for (place, byte) in [
        (1, 0),
        (12, 2),
        (13, 3),
        (18, 2),
        (19, 2),
        (20, 9),
        (21, 1),
        (22, 1),
        (23, 1),
    ] {
        let good = std::mem::replace(&mut saved[place], byte);
        assert_eq!(load(&saved, 0, 0), Err(13), "byte {place} is {byte}");
        saved[place] = good;
    }
}

#[test]
fn a_record_has_64_bytes() {
    let mut long = [0; 65];
    assert_eq!(ffi::cold(&mut long), 8);
    assert!(!ffi::well(&long));
    assert_eq!(ffi::step(&mut long, 0), 8);
    assert_eq!(long, [0; 65]);
    let run = ffi::run(
        &mut long,
        1,
        &mut [0; MEMORY],
        &[0; 256],
        &mut [0; 256],
        &[],
        &mut [0; 8],
    );
    assert_eq!(run, 8);
    let mut out = vec![0; SAVED];
    assert_eq!(ffi::save(&long, &[0; MEMORY], &[0; 256], &mut out), 8);
    assert_eq!(ffi::load(&mut long, &[], &mut [], &mut []), 8);
}

#[test]
fn numbers_and_refusals_name_each_other() {
    let numbers = [
        1, 2, 3, 4, 5, 6, 7, 8, 9, 11, 12, 13, 14, 15, 16, 17, 18, 19,
    ];
    assert_eq!(Refusal::ALL.map(Refusal::number), numbers);
    for number in 0..=255 {
        let named = Refusal::from_number(number).map(Refusal::number);
        assert_eq!(named, numbers.contains(&number).then_some(number));
    }
    assert_eq!(
        Refusal::TooManyStates.to_string(),
        "6: more than 8,192 states asked"
    );
}

#[test]
fn a_refused_run_leaves_the_trace() {
    let (mut machine, mut board, mut trace) = (Machine::cold(), Board::new(), Trace::new());
    let none = Schedule::new();
    machine
        .run(&mut board, &none, &mut trace, 4)
        .expect("a run");
    let rows = trace.rows().to_vec();
    let refused = machine.run(&mut board, &none, &mut trace, 8_193);
    assert_eq!(refused, Err(Refusal::TooManyStates));
    assert_eq!(trace.rows(), rows);
}
