//! Records of a file whose shape may be anything, and names for what they say.

use super::excerpt::position;
use crate::script::{records, Section, Text};
use crate::text::Reading;

/// Columns of a record's text that are shown at the most.
const MOST: usize = 70;

/// Names of types, fields and methods: those of the text, or numbers.
pub struct Names<'a> {
    text: Option<&'a Text>,
    pub interfaces: usize,
    pub classes: usize,
}

impl<'a> Names<'a> {
    pub fn of(file: &[u8], text: Option<&'a Text>) -> Names<'a> {
        let count = |section| records(file, section).1.len();
        Names { text, interfaces: count(Section::Interface), classes: count(Section::Class) }
    }

    /// The type number of Int.
    pub fn int(&self) -> usize {
        self.interfaces + self.classes + 1
    }

    fn named(&self, names: fn(&Reading) -> &Vec<String>, number: usize, else_called: String) -> String {
        self.text.and_then(|text| names(&text.reading).get(number)).cloned().unwrap_or(else_called)
    }

    /// A type, and which sort it is.
    pub fn type_sort(&self, number: usize) -> String {
        let name = self.named(|reading| &reading.types, number, format!("type {number}"));
        match number {
            0 => "Unit".into(),
            _ if number <= self.interfaces => format!("{name}, an interface"),
            _ if number < self.int() => format!("{name}, a class"),
            _ if number == self.int() => "Int".into(),
            _ => format!("{name}, which is not there"),
        }
    }

    /// Where a record stands: its line in the text, or its number.
    pub fn place(&self, section: Section, number: usize) -> String {
        let span = self.text.and_then(|text| Some((text, text.reading.spans[section as usize].get(number)?)));
        match span {
            Some((text, span)) => format!("line {}", position(&text.bytes, span.start).0),
            None => format!("{} {number}", section.name()),
        }
    }

    /// The name of a field, or of a signature or method.
    pub fn of_record(&self, section: Section, number: usize) -> String {
        match section {
            Section::Field => self.named(|reading| &reading.fields, number, format!("f{number}")),
            _ => self.named(|reading| &reading.methods, number, format!("m{number}")),
        }
    }
}

/// A record as it is shown: the beginning of its text, or its words.
pub fn shown(text: Option<&Text>, section: Section, number: usize, words: &[usize]) -> String {
    let of_text = text.and_then(|text| {
        let span = text.reading.spans[section as usize].get(number)?.clone();
        text.bytes.get(span)
    });
    let Some(bytes) = of_text else {
        let words: Vec<String> = words.iter().map(usize::to_string).collect();
        return format!("words {}", words.join(" "));
    };
    let text = String::from_utf8_lossy(bytes);
    let (head, rest) = text.split_once('{').unwrap_or((&text, ""));
    let mut shown = head.split_whitespace().collect::<Vec<_>>().join(" ");
    if shown.len() > MOST {
        shown = shown.chars().take(MOST).collect::<String>() + "..";
    }
    match section {
        Section::Field => format!("field {shown}"),
        _ if rest.is_empty() => shown,
        _ => format!("{shown} {{..}}"),
    }
}
