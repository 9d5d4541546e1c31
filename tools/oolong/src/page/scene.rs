//! What a page says of its script: the text, the nodes and the names, which no step changes.

use super::json;
use crate::script::{Node, Script};
use std::collections::BTreeSet;
use std::ops::Range;

/// The text. Read takes ASCII only; another byte would become one sign, so that the spans count signs as well as bytes.
pub fn text(script: &Script) -> String {
    let Some(text) = &script.text else { return "null".into() };
    let sign = |&byte: &u8| if byte.is_ascii() { char::from(byte) } else { char::REPLACEMENT_CHARACTER };
    json::string(&text.bytes.iter().map(sign).collect::<String>())
}

/// What a frame of a node is called.
fn kind(node: Node) -> &'static str {
    match node {
        Node::Null => "null",
        Node::Variable(_) => "variable",
        Node::Read { .. } => "read",
        Node::Write { .. } => "write",
        Node::Call { .. } => "call",
        Node::Let { .. } => "let",
        Node::New { .. } => "new",
        Node::Cast { .. } => "cast",
        Node::Fork { .. } => "fork",
        Node::Lock { .. } => "lock",
        Node::Number(_) => "number",
        Node::Sum(..) => "sum",
    }
}

/// The bytes of a node in the text, if there is one.
fn span(script: &Script, node: usize) -> Option<&Range<usize>> {
    let text = script.text.as_ref()?;
    text.reading.spans[5].get(node).filter(|span| span.start <= span.end && span.end <= text.bytes.len())
}

/// Where the node's own words end: at its first part, if it has one. What is blank before that is left out.
fn head(script: &Script, node: usize, span: &Range<usize>) -> usize {
    let part = script.nodes[node].parts().first().and_then(|&part| self::span(script, part));
    let end = part.map_or(span.end, |part| part.start.clamp(span.start, span.end));
    let words = script.text.as_ref().and_then(|text| text.bytes.get(span.start..end)).unwrap_or(&[]);
    span.start + words.trim_ascii_end().len()
}

/// Of each node its kind, its expression, the method that it is in, and in a text where it begins, where its own words end and where it ends.
pub fn nodes(script: &Script) -> String {
    let node = |number: usize| {
        let mut entry = vec![
            json::string(kind(script.nodes[number])),
            json::string(&script.expression(number)),
            json::number(script.owners.get(number).copied().flatten()),
        ];
        if let Some(span) = span(script, number) {
            let places = [span.start, head(script, number, span), span.end];
            entry.extend(places.iter().map(usize::to_string));
        }
        json::array(entry)
    };
    json::array((0..script.nodes.len()).map(node))
}

/// The types' names, by number.
pub fn types(script: &Script) -> String {
    json::strings((0..=script.int()).map(|number| script.type_name(number)))
}

/// The names of each class's fields, by the class's type number.
pub fn classes(script: &Script) -> String {
    let fields =
        |class: usize| json::strings(script.fields_of(class).iter().map(|field| script.field_name(field.name)));
    json::array((0..=script.int()).map(fields))
}

/// Each method's name behind that of its class, and its parameter's name.
pub fn methods(script: &Script) -> String {
    let class = |method: usize| {
        let class = script.classes.iter().position(|class| class.methods.contains(&method));
        class.map_or(String::new(), |class| script.type_name(script.interfaces + 1 + class))
    };
    let method = |(number, method): (usize, &crate::script::Method)| {
        let name = format!("{}.{}", class(number), script.method_name(method.name));
        json::strings([name, script.variable_name(method.body, 1)])
    };
    json::array(script.methods.iter().enumerate().map(method))
}

/// The names of these variables, by number. That of a parameter, 1, is with its method.
pub fn variables(script: &Script, numbers: &BTreeSet<usize>) -> String {
    let named = |number: &usize| (number.to_string(), json::string(&script.variable_name(0, *number)));
    let names: Vec<(String, String)> = numbers.iter().map(named).collect();
    json::object(names.iter().map(|(number, name)| (number.as_str(), name.clone())))
}
