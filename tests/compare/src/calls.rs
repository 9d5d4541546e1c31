//! Start, Offer and Run, on scripts with blocks that a run reached, that were made without running, that are damaged, or that have a wrong length: the numbers of each reply, and every byte
//! that the call may write. Where a case tells what may be answered, Offer and Run answer that.

use second::cases::{any_case, Case};
use second::generate::Rng;
use std::collections::BTreeMap;
use std::time::Instant;

/// One answer in this many cases is often enough.
const RARE: u64 = 500;

/// The answers that must come up: of each call the number 0, a refusal of the script, and those of the lent buffers; of Run every stop.
const ANSWERS: &[(&str, &[u16])] = &[
    ("Start", &[0, SCRIPT, 20]),
    ("Offer", &[0, SCRIPT, 20, 22, 21, 26, 27]),
    ("Run", &[0, SCRIPT, 20, 22, 21, 26, 27]),
    ("Run's stop", &[0, 1, 2, 3, 4, 5, 6, 7]),
];

/// Stands for all of the refusals 1 to 15, which the comparison of Check counts one by one.
const SCRIPT: u16 = 15;

/// How often each answer of each call came up.
#[derive(Default)]
pub struct Tally(BTreeMap<(&'static str, u16), u64>);

impl Tally {
    fn count(&mut self, call: &'static str, number: u16) {
        let answer = if (1..=15).contains(&number) { SCRIPT } else { number };
        *self.0.entry((call, answer)).or_default() += 1;
    }

    fn count_stop(&mut self, stop: u16) {
        *self.0.entry(("Run's stop", stop)).or_default() += 1;
    }

    pub fn times(&self, call: &'static str, answer: u16) -> u64 {
        self.0.get(&(call, answer)).copied().unwrap_or(0)
    }
}

pub fn compare(count: u64, seed: u64) -> Result<(), String> {
    let begin = Instant::now();
    let mut rng = Rng::new(seed);
    let mut tally = Tally::default();
    for done in 1..=count {
        let case = any_case(&mut rng);
        agree(&case, &mut tally)
            .map_err(|message| format!("case {done} of seed {seed}, {:?}: {message}", case.origin))?;
        crate::progress(begin, done, count);
    }
    println!("{count} cases with seed {seed}: how often each answer came up ({SCRIPT} stands for 1 to 15)");
    for ((call, answer), times) in &tally.0 {
        println!("{call:10} {answer:2} {times:8}");
    }
    let mut expected = ANSWERS.iter().flat_map(|&(call, answers)| answers.iter().map(move |&answer| (call, answer)));
    match expected.find(|&(call, answer)| tally.times(call, answer) < count.div_ceil(RARE)) {
        Some((call, answer)) => Err(format!("{call} answered {answer} too rarely")),
        None => Ok(()),
    }
}

pub fn agree(case: &Case, tally: &mut Tally) -> Result<(), String> {
    start(case, tally)?;
    agree_on_block(case, tally)
}

/// Offer and Run alone.
pub fn agree_on_block(case: &Case, tally: &mut Tally) -> Result<(), String> {
    offer(case, tally)?;
    run(case, tally)
}

fn start(case: &Case, tally: &mut Tally) -> Result<(), String> {
    let (mut block, mut expected_block) = (case.block.clone(), case.block.clone());
    let given = engine::start(&case.script, &mut block);
    let expected = second::start(&case.script, &mut expected_block);
    same("Start", &[given.number, given.place], &[expected.number, expected.place])?;
    same("Start's block", &block, &expected_block)?;
    tally.count("Start", given.number);
    Ok(())
}

fn offer(case: &Case, tally: &mut Tally) -> Result<(), String> {
    let (mut flags, mut expected_flags) = (case.flags.clone(), case.flags.clone());
    let given = engine::offer(&case.script, &case.block, &mut flags);
    let expected = second::offer(&case.script, &case.block, &mut expected_flags);
    same("Offer", &[given.number, given.place], &[expected.number, expected.place])?;
    same("Offer's flags", &flags, &expected_flags)?;
    tally.count("Offer", given.number);
    allowed(case, "Offer", given.number)
}

fn run(case: &Case, tally: &mut Tally) -> Result<(), String> {
    let (mut block, mut expected_block) = (case.block.clone(), case.block.clone());
    let given = engine::run(&case.script, &mut block, &case.choices);
    let expected = second::run(&case.script, &mut expected_block, &case.choices);
    let numbers = [given.number, given.place, given.stop, given.read, given.moves];
    same("Run", &numbers, &[expected.number, expected.place, expected.stop, expected.read, expected.moves])?;
    same("Run's block", &block, &expected_block)?;
    tally.count("Run", given.number);
    if given.number == 0 {
        tally.count_stop(given.stop);
    }
    allowed(case, "Run", given.number)
}

/// Where the case tells what may be answered, it is that.
fn allowed(case: &Case, call: &str, number: u16) -> Result<(), String> {
    match case.allows(number) {
        true => Ok(()),
        false => Err(format!("{call} answers {number}, which is none of {:?}", case.answers)),
    }
}

/// Both lists are equal; else the message shows their lengths, or the first difference.
fn same<T: PartialEq + std::fmt::Debug>(what: &str, given: &[T], expected: &[T]) -> Result<(), String> {
    if given == expected {
        return Ok(());
    }
    let first = given.iter().zip(expected).position(|(one, other)| one != other);
    let (at, one, other) = match first {
        Some(at) => (format!("at {at} "), format!("{:?}", given[at]), format!("{:?}", expected[at])),
        None => (String::new(), given.len().to_string(), expected.len().to_string()),
    };
    Err(format!("{what}: {at}the engine has {one}, the second implementation {other}"))
}
