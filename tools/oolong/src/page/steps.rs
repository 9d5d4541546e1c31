//! The steps of a run for the page: of each only what differs from the step before.

use super::json;
use crate::shown::{Next, Shown};
use crate::state::{Binding, Environment, Frame, Kind, Object, State, Value};
use std::collections::HashMap;

/// Words that the page shows, each once: `said` and what is due are the same at many steps.
#[derive(Default)]
struct Words {
    numbers: HashMap<String, usize>,
    list: Vec<String>,
}

impl Words {
    fn number(&mut self, words: &str) -> usize {
        if let Some(&number) = self.numbers.get(words) {
            return number;
        }
        self.numbers.insert(words.to_string(), self.list.len());
        self.list.push(words.to_string());
        self.list.len() - 1
    }
}

#[derive(Default)]
pub struct Steps {
    last: Option<Lists>,
    steps: Vec<String>,
    words: Words,
}

/// The lists of a state as the page has them. Which positions are sides of which join their order says.
struct Lists {
    objects: Vec<(Object, Option<usize>)>,
    bindings: Vec<Binding>,
    frames: Vec<Frame>,
    positions: Vec<(Kind, usize)>,
    next: Vec<Next>,
}

impl Lists {
    fn of(state: State, next: Vec<Next>) -> Lists {
        let holder = |number: usize| state.objects[number].shut.then(|| state.holder(number)).flatten();
        let holders: Vec<Option<usize>> = (0..state.objects.len()).map(holder).collect();
        Lists {
            objects: state.objects.into_iter().zip(holders).collect(),
            bindings: state.bindings,
            frames: state.frames,
            positions: state.positions.iter().map(|position| (position.kind, position.frames.len())).collect(),
            next,
        }
    }

    fn empty() -> Lists {
        Lists { objects: vec![], bindings: vec![], frames: vec![], positions: vec![], next: vec![] }
    }
}

impl Steps {
    pub fn add(&mut self, point: Shown) {
        let said = self.words.number(&point.said);
        let now = Lists::of(point.state, point.next);
        let last = self.last.take().unwrap_or_else(Lists::empty);
        let words = &mut self.words;
        let mut members = vec![("s", said.to_string())];
        members.extend(point.choice.map(|choice| ("c", choice.to_string())));
        members.extend(edits(&last.objects, &now.objects, object).map(|edits| ("o", edits)));
        members.extend(edits(&last.bindings, &now.bindings, binding).map(|edits| ("b", edits)));
        members.extend(edits(&last.frames, &now.frames, frame).map(|edits| ("f", edits)));
        members.extend(edits(&last.positions, &now.positions, position).map(|edits| ("p", edits)));
        members.extend(edits(&last.next, &now.next, |next| due(next, words)).map(|edits| ("n", edits)));
        self.steps.push(json::object(members));
        self.last = Some(now);
    }

    pub fn words(&self) -> String {
        json::array(self.words.list.iter().map(|words| json::string(words)))
    }

    pub fn json(&self) -> String {
        format!("[\n{}\n]", self.steps.join(",\n"))
    }
}

/// What makes the new list of the old: runs of a place in the old list, how many entries go, and those that come. None where the lists are the same.
fn edits<T: PartialEq>(old: &[T], new: &[T], entry: impl FnMut(&T) -> String) -> Option<String> {
    if old == new {
        return None;
    }
    let mut entry = entry;
    let runs = if old.len() == new.len() { differing(old, new) } else { vec![between(old, new)] };
    let run = |(start, gone, came): (usize, usize, usize)| {
        let mut items = vec![start.to_string(), gone.to_string()];
        items.extend(new[start..start + came].iter().map(&mut entry));
        json::array(items)
    };
    Some(json::array(runs.into_iter().map(run)))
}

/// The runs of entries that differ in two lists of one length.
pub(super) fn differing<T: PartialEq>(old: &[T], new: &[T]) -> Vec<(usize, usize, usize)> {
    let mut runs: Vec<(usize, usize, usize)> = Vec::new();
    for place in (0..new.len()).filter(|&place| old[place] != new[place]) {
        match runs.last_mut() {
            Some((start, gone, came)) if *start + *came == place => (*gone, *came) = (*gone + 1, *came + 1),
            _ => runs.push((place, 1, 1)),
        }
    }
    runs
}

/// The one run between what two lists share at their beginning and at their end.
pub(super) fn between<T: PartialEq>(old: &[T], new: &[T]) -> (usize, usize, usize) {
    let start = old.iter().zip(new).take_while(|(a, b)| a == b).count();
    let ends = old[start..].iter().rev().zip(new[start..].iter().rev());
    let end = ends.take_while(|(a, b)| a == b).count();
    (start, old.len() - start - end, new.len() - start - end)
}

/// A number as it is, an object as a list of its number, or null.
fn value(value: Value) -> String {
    match value {
        Value::Null => "null".into(),
        Value::Object(object) => format!("[{object}]"),
        Value::Number(number) => number.to_string(),
    }
}

fn environment(environment: Environment) -> String {
    json::number(environment)
}

/// Class, shut, holder, fields.
fn object((object, holder): &(Object, Option<usize>)) -> String {
    let mut items = vec![object.class.to_string(), u8::from(object.shut).to_string(), json::number(*holder)];
    items.extend(object.fields.iter().map(|&field| value(field)));
    json::array(items)
}

/// Variable, type, value, link.
fn binding(binding: &Binding) -> String {
    let (variable, type_number) = (binding.variable.to_string(), binding.type_number.to_string());
    json::array([variable, type_number, value(binding.value), environment(binding.link)])
}

fn frame(frame: &Frame) -> String {
    match *frame {
        Frame::Waiting { node, environment } => {
            json::array(["1".into(), node.to_string(), self::environment(environment)])
        }
        Frame::Cast { node } => format!("[2,{node}]"),
        Frame::Lock { object } => format!("[3,{object}]"),
    }
}

/// Kind, number of frames, and the node with its environment or the value.
fn position((kind, frames): &(Kind, usize)) -> String {
    match *kind {
        Kind::AtNode { node, environment } => format!("[1,{frames},{node},{}]", self::environment(environment)),
        Kind::WithValue(value) => format!("[2,{frames},{}]", self::value(value)),
        Kind::Failed => format!("[3,{frames}]"),
        Kind::Join { node, environment } => format!("[4,{frames},{node},{}]", self::environment(environment)),
    }
}

/// Able, the object that is waited for, the words.
fn due(next: &Next, words: &mut Words) -> String {
    let words = words.number(&next.words);
    json::array([u8::from(next.able).to_string(), json::number(next.waits_for), words.to_string()])
}
