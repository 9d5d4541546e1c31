//! The silent moves from every node of a script, and from numbers that are no node's.

use second::expr::parts;
use second::generate::Rng;
use second::program::Program;
use second::silent::moves_from;
use second::{Reply, SilentReply};
use std::collections::BTreeMap;

/// What comes up once in this many scripts comes up often enough.
const RARE: u64 = 1_000;

/// A call about a node asks the whole script, so of a script with more nodes only so many are drawn;
const MOST_ASKED: usize = 32;
/// but of one in so many of these scripts all are asked too.
const WHOLE_IN: usize = 32;

const KINDS: [&str; 12] = [
    "a node that is a null",
    "a variable",
    "a read",
    "a write",
    "a call",
    "a let",
    "a new",
    "a cast",
    "a fork",
    "a lock",
    "a constant",
    "a sum",
];

const COUNTS: [&str; 6] = ["a count of 0", "of 1", "of 2", "of 3 to 9", "of 10 to 99", "of 100 and more"];

/// Scripts of which no node has a count are rare.
const MOST: [&str; 5] =
    ["a script with 0 or 1 at the most", "with 2", "with 3 to 9", "with 10 to 99", "with 100 and more"];

/// The largest count stands in bodies of methods alone.
const IN_A_BODY: &str = "the most in no node of the start";
/// A number that is no node's is asked about, and its low half is that of a node with a count.
const LOW_HALF: &str = "a number above 65,535 whose low half has a count";
const REFUSED: &str = "a script that is refused";

/// How often what is looked for came up.
#[derive(Default)]
pub struct Tally(BTreeMap<&'static str, u64>);

impl Tally {
    fn count(&mut self, what: &'static str, is_so: bool) {
        *self.0.entry(what).or_default() += u64::from(is_so);
    }

    /// Says how often everything came up in so many scripts; an error if that is too rarely.
    pub fn is_often(&self, scripts: u64) -> Result<(), String> {
        let all = KINDS.iter().chain(&COUNTS).chain(&MOST).chain(&[IN_A_BODY, LOW_HALF, REFUSED]);
        for what in all {
            let times = self.0.get(what).copied().unwrap_or(0);
            println!("{times:10} {what}");
            if times < scripts.div_ceil(RARE) {
                return Err(format!("'{what}' came up too rarely"));
            }
        }
        Ok(())
    }
}

/// In which of `COUNTS` a count is; `MOST` has the first two in one.
fn size(count: u16) -> usize {
    match count {
        0..=2 => count.into(),
        3..=9 => 3,
        10..=99 => 4,
        100.. => 5,
    }
}

/// Both count alike, or refuse alike, if the script gets this reply from both.
pub fn agree(script: &[u8], reply: Reply, rng: &mut Rng, tally: &mut Tally) -> Result<(), String> {
    let Ok(program) = Program::read(script) else {
        tally.count(REFUSED, true);
        let refused = SilentReply { number: reply.number, place: reply.place, count: 0 };
        return [0, 1, 1_023, 65_535, 65_536, u32::MAX].into_iter().try_for_each(|node| same(script, node, refused));
    };
    let counted = |count: u16| SilentReply { number: 0, place: 0, count };
    let counts: Vec<u16> =
        (0..).zip(&program.expressions).map(|(node, _)| moves_from(&program.expressions, node)).collect();
    for node in asked(counts.len(), rng) {
        same(script, node as u32, counted(counts[node]))?;
        tally.count(KINDS[program.script.nodes[node][0] as usize], true);
        tally.count(COUNTS[size(counts[node])], true);
    }
    let (nodes, longest) = (counts.len() as u32, counts.iter().position(|&count| count == reply.silent));
    let low_half = 65_536 + longest.ok_or("no node has the largest count")? as u32;
    for node in [nodes, nodes + 1, 1_024, 65_535, 65_536, low_half, 1 << 31, u32::MAX] {
        same(script, node, counted(0))?;
    }
    tally.count(LOW_HALF, reply.silent > 0);
    tally.count(MOST[size(reply.silent).saturating_sub(1)], true);
    tally.count(IN_A_BODY, start_nodes(&program).iter().all(|&node| counts[node as usize] < reply.silent));
    Ok(())
}

/// The nodes that are asked about, the first and the last among them.
fn asked(nodes: usize, rng: &mut Rng) -> Vec<usize> {
    if nodes <= MOST_ASKED || rng.one_in(WHOLE_IN) {
        return (0..nodes).collect();
    }
    let drawn = (2..MOST_ASKED).map(|_| rng.below(nodes));
    drawn.chain([0, nodes - 1]).collect()
}

fn same(script: &[u8], node: u32, expected: SilentReply) -> Result<(), String> {
    let given = engine::silent(script, node);
    if (given.number, given.place, given.count) == (expected.number, expected.place, expected.count) {
        return Ok(());
    }
    Err(format!("node {node}: the engine answers {given:?}, the second implementation {expected:?}: {script:?}"))
}

/// The nodes of the start expression.
fn start_nodes(program: &Program) -> Vec<u16> {
    let mut found = vec![0];
    let mut at = 0;
    while let Some(&node) = found.get(at) {
        found.extend(parts(&program.script.nodes[node as usize]));
        at += 1;
    }
    found
}
