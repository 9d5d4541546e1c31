//! A search of the tests' own, to hold the tool's to: all moves in every state, blocks compared byte for byte, and an own way to say what an end is.

use super::{flags, run};
use oolong::layout::{AREAS, BLOCK, FLAGS};
use oolong::script::Script;
use oolong::state::{Environment, Frame, Kind, State, Value};
use std::collections::{BTreeSet, HashSet};
use std::fmt::Write;

pub struct Plain {
    pub states: usize,
    /// What Run stops with, and what tells the ends of one kind apart.
    pub ends: BTreeSet<(u16, String)>,
}

/// The records that there are, which a block is zeros without.
fn squeezed(block: &[u8]) -> Vec<u8> {
    let mut bytes = block[..8].to_vec();
    AREAS.iter().for_each(|area| bytes.extend(&block[area.record(0)..area.record(area.len(block))]));
    bytes
}

fn block_of(bytes: &[u8]) -> Vec<u8> {
    let mut block = vec![0; BLOCK];
    block[..8].copy_from_slice(&bytes[..8]);
    let mut at = 8;
    for area in AREAS {
        let records = area.record(0)..area.record(area.len(&block));
        let end = at + records.len();
        block[records].copy_from_slice(&bytes[at..end]);
        at = end;
    }
    block
}

/// A move of a position, or that none can move.
pub struct Seen<'a> {
    pub before: &'a [u8],
    pub position: Option<usize>,
    pub after: &'a [u8],
    pub reply: engine::RunReply,
}

/// Shows every move of every state from a block on; how many states there are, if not more than `most`.
pub fn each(script: &Script, from: &[u8], most: usize, see: &mut dyn FnMut(Seen)) -> Option<usize> {
    let mut known: HashSet<Vec<u8>> = HashSet::from([squeezed(from)]);
    let mut waiting = vec![squeezed(from)];
    while let Some(bytes) = waiting.pop() {
        let before = block_of(&bytes);
        let flags = flags(script, &before);
        if flags == [0; FLAGS] {
            let mut after = before.clone();
            let reply = run(script, &mut after, &[]);
            see(Seen { before: &before, position: None, after: &after, reply });
        }
        for position in (0..FLAGS).filter(|&position| flags[position] == 1) {
            let mut after = before.clone();
            let reply = run(script, &mut after, &[position as u8]);
            see(Seen { before: &before, position: Some(position), after: &after, reply });
            if reply.moves == 1 && known.insert(squeezed(&after)) {
                waiting.push(squeezed(&after));
            }
        }
        if known.len() > most {
            return None;
        }
    }
    Some(known.len())
}

/// All that a script can come to from a block; none if there are more states than `most`.
pub fn search(script: &Script, from: &[u8], most: usize) -> Option<Plain> {
    let mut ends = BTreeSet::new();
    let mut see = |seen: Seen| {
        if seen.reply.moves == 0 {
            ends.insert((seen.reply.stop, told(script, seen.after, seen.reply.stop)));
        }
    };
    let states = each(script, from, most, &mut see)?;
    Some(Plain { states, ends })
}

/// Objects by the order in which they are named.
struct Telling<'a> {
    state: &'a State,
    order: Vec<usize>,
    text: String,
}

impl Telling<'_> {
    fn put(&mut self, piece: impl std::fmt::Display) {
        let _ = write!(self.text, "{piece} ");
    }

    fn value(&mut self, value: Value) {
        match value {
            Value::Null => self.put("null"),
            Value::Number(number) => self.put(number),
            Value::Object(object) => {
                let known = self.order.iter().position(|&other| other == object);
                let number = known.unwrap_or_else(|| {
                    self.order.push(object);
                    self.order.len() - 1
                });
                self.put(format_args!("#{number}"));
            }
        }
    }

    fn environment(&mut self, environment: Environment) {
        let state = self.state;
        let mut next = environment;
        while let Some(binding) = next.map(|number| &state.bindings[number]) {
            self.put(format_args!("{}:{}", binding.variable, binding.type_number));
            self.value(binding.value);
            next = binding.link;
        }
        self.put(".");
    }

    fn frame(&mut self, frame: Frame) {
        match frame {
            Frame::Waiting { node, environment } => {
                self.put(format_args!("waiting {node}"));
                self.environment(environment);
            }
            Frame::Cast { node } => self.put(format_args!("cast {node}")),
            Frame::Lock { object } => {
                self.put("lock");
                self.value(Value::Object(object));
            }
        }
    }

    fn kind(&mut self, kind: Kind) {
        match kind {
            Kind::AtNode { node, environment } | Kind::Join { node, environment } => {
                self.put(if matches!(kind, Kind::Join { .. }) { "join" } else { "at" });
                self.put(node);
                self.environment(environment);
            }
            Kind::WithValue(value) => self.value(value),
            Kind::Failed => self.put("failed"),
        }
    }

    /// The objects that were named, and those that they name.
    fn objects(&mut self) {
        let state = self.state;
        let mut done = 0;
        while let Some(&number) = self.order.get(done) {
            let object = &state.objects[number];
            self.put(format_args!("/ {} {}", object.class, object.shut));
            object.fields.iter().for_each(|&field| self.value(field));
            done += 1;
        }
    }
}

/// What tells an end from others with the same stop: the whole tree with all that it reaches, of a run that has finished or is in a deadlock.
pub fn told(script: &Script, block: &[u8], stop: u16) -> String {
    if stop != 1 && stop != 3 {
        return String::new();
    }
    let state = State::of(script, block);
    let mut telling = Telling { state: &state, order: Vec::new(), text: String::new() };
    for (i, position) in state.positions.iter().enumerate() {
        telling.kind(position.kind);
        state.frames_of(i).iter().for_each(|&frame| telling.frame(frame));
    }
    telling.objects();
    telling.text
}
