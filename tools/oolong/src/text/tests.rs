use super::{reading, Reading};
use crate::script::{records, Script, Section, SECTIONS};
use std::fs;
use std::path::Path;

/// Numbers from a seed, the same in each run of the tests.
struct Random(u64);

impl Random {
    fn below(&mut self, most: usize) -> usize {
        self.0 = self.0.wrapping_mul(6_364_136_223_846_793_005).wrapping_add(1_442_695_040_888_963_407);
        (self.0 >> 33) as usize % most
    }

    fn one<'a>(&mut self, of: &[&'a str]) -> &'a str {
        of[self.below(of.len())]
    }
}

/// Few names for all sorts, so that they meet.
const NAMES: [&str; 6] = ["a", "b", "n", "add", "letx", "_2"];
const TYPES: [&str; 6] = ["I", "J", "C", "D", "Unit", "Int"];

struct Generator {
    random: Random,
    text: String,
}

impl Generator {
    fn put(&mut self, token: &str) {
        let blank = self.random.one(&[" ", " ", "\n", "\t", "\r\n  "]);
        self.text += token;
        self.text += blank;
    }

    fn all(&mut self, tokens: &str) {
        tokens.split(' ').for_each(|token| self.put(token));
    }

    fn name(&mut self) {
        let name = self.random.one(&NAMES);
        self.put(name);
    }

    fn type_name(&mut self, of: &[&str]) {
        let name = self.random.one(of);
        self.put(name);
    }

    fn variable(&mut self) {
        match self.random.below(5) {
            0 => self.put("this"),
            _ => self.name(),
        }
    }

    fn signature(&mut self) {
        self.name();
        self.put("(");
        self.name();
        self.put(":");
        self.type_name(&TYPES);
        self.all(") :");
        self.type_name(&TYPES);
    }

    fn many(&mut self, what: fn(&mut Generator)) {
        for _ in 0..self.random.below(4) {
            what(self);
        }
    }

    fn class(&mut self, name: &str) {
        self.all(&format!("class {name} implements I {{"));
        self.many(|it| {
            it.name();
            it.put(":");
            it.type_name(&TYPES);
        });
        self.many(|it| {
            it.put("def");
            it.signature();
            it.put("{");
            it.expression(4);
            it.put("}");
        });
        self.put("}");
    }

    fn leaf(&mut self) {
        match self.random.below(7) {
            0 => self.put("null"),
            1 => self.all("- 005"),
            2 => self.put("21"),
            3 => {
                self.put("new");
                self.type_name(&TYPES[..4]);
            }
            4 => self.sum(),
            5 => {
                self.put("(");
                self.sum();
                self.put(")");
            }
            _ => self.variable(),
        }
    }

    fn sum(&mut self) {
        self.variable();
        self.put("+");
        self.variable();
    }

    fn member(&mut self, sign: &str) {
        self.variable();
        self.put(".");
        self.name();
        if !sign.is_empty() {
            self.put(sign);
        }
    }

    fn expression(&mut self, depth: usize) {
        if depth == 0 {
            return self.leaf();
        }
        match self.random.below(9) {
            0 => self.member(""),
            1 => {
                self.member("=");
                self.expression(depth - 1);
            }
            2 => {
                self.member("(");
                self.expression(depth - 1);
                self.put(")");
            }
            3 | 4 => self.let_of(depth),
            5 => {
                self.put("(");
                self.type_name(&TYPES);
                self.put(")");
                self.expression(depth - 1);
            }
            6 => self.fork(depth),
            7 => {
                self.all("lock (");
                self.variable();
                self.all(") in");
                self.expression(depth - 1);
            }
            _ => self.leaf(),
        }
    }

    fn let_of(&mut self, depth: usize) {
        self.put("let");
        self.name();
        self.put("=");
        self.expression(depth - 1);
        self.put("in");
        self.expression(depth - 1);
    }

    fn fork(&mut self, depth: usize) {
        self.all("finish { async {");
        self.expression(depth - 1);
        self.all("} async {");
        self.expression(depth - 1);
        self.all("} } ;");
        self.expression(depth - 1);
    }

    fn program(seed: u64) -> String {
        let mut it = Generator { random: Random(seed), text: String::new() };
        it.all("interface I {");
        it.many(Generator::signature);
        it.all("} interface J extends I , I");
        it.class("C");
        it.class("D");
        it.expression(5);
        it.text
    }
}

fn file(text: &[u8]) -> Option<Vec<u8>> {
    let mut file = vec![0; 13_592];
    let reply = engine::read(text, &mut file);
    file.truncate(usize::from(reply.length));
    (reply.number == 0).then_some(file)
}

/// What a node's text begins with, word by word, as its record and the names say.
fn beginning(words: &[usize], reading: &Reading, parameter: &str, int: usize) -> String {
    let variable = |number: usize| if number == 1 { parameter } else { &reading.variables[number] };
    let type_name = |number: usize| if number == int { "Int" } else { &reading.types[number] };
    let (a, b) = (words[1], words[2]);
    match words[0] {
        0 => "null".into(),
        1 => variable(a).into(),
        2 => format!("{} . {}", variable(a), reading.fields[b]),
        3 => format!("{} . {} =", variable(a), reading.fields[b]),
        4 => format!("{} . {} (", variable(a), reading.methods[b]),
        5 => format!("let {} =", variable(a)),
        6 => format!("new {}", type_name(a)),
        7 => format!("( {} )", type_name(a)),
        8 => "finish { async {".into(),
        9 => format!("lock ( {} ) in", variable(a)),
        11 => format!("{} + {}", variable(a), variable(b)),
        _ => ((a as u32 | (b as u32) << 16) as i32).to_string(),
    }
}

/// The tokens of a record's text, with one blank between them.
fn record_text(text: &[u8], reading: &Reading, section: usize, number: usize) -> String {
    let span = text.get(reading.spans[section][number].clone()).expect("a span within the text");
    let tokens = super::tokens(span);
    assert_eq!((tokens[0].start, tokens.last().map(|token| token.end)), (0, Some(span.len())), "whole tokens");
    let tokens: Vec<&str> = tokens.into_iter().map(|token| std::str::from_utf8(&span[token]).unwrap()).collect();
    tokens.join(" ")
}

/// Whether a node's text, up to its parts, is what its record says; a node without parts has nothing more.
fn assert_node(words: &[usize], shown: &str, begins: &str) {
    match words[0] {
        10 => {
            let digits: i64 = shown.replace("- ", "-").parse().expect("a number");
            assert_eq!(digits.to_string(), begins);
        }
        0 | 1 | 2 | 6 => assert_eq!(shown, begins),
        11 => assert!(shown == begins || shown == format!("( {begins} )"), "{shown} is not {begins}"),
        4 => assert!(shown.starts_with(begins) && shown.ends_with(" )"), "{shown} is not {begins} .. )"),
        _ => assert!(shown.starts_with(&format!("{begins} ")), "{shown} is not {begins} .."),
    }
}

fn assert_nodes(text: &[u8], script: &Script, reading: &Reading) {
    assert_eq!(reading.types.len(), script.int());
    for (number, words) in records(&script.file, Section::Node).1.iter().enumerate() {
        let parameter = script.owners[number].map_or("", |method| &reading.parameters[method]);
        let shown = record_text(text, reading, 5, number);
        assert_node(words, &shown, &beginning(words, reading, parameter, script.int()));
        for part in script.nodes[number].parts() {
            let (outer, inner) = (&reading.spans[5][number], &reading.spans[5][part]);
            assert!(outer.start < inner.start && inner.end <= outer.end, "a part stands within its node");
        }
    }
}

/// What the text of another record begins with.
fn declared(section: Section, number: usize, words: &[usize], reading: &Reading, int: usize) -> String {
    let type_name = |number: usize| if number == int { "Int" } else { &reading.types[number] };
    let interfaces = reading.spans[0].len();
    match section {
        Section::Interface if words[0] == 0 => format!("interface {} {{", reading.types[number + 1]),
        Section::Interface => {
            let name = &reading.types[number + 1];
            format!("interface {name} extends {} , {}", type_name(words[1]), type_name(words[2]))
        }
        Section::Signature => format!("{} (", reading.methods[words[0]]),
        Section::Class => {
            let name = &reading.types[interfaces + number + 1];
            format!("class {name} implements {} {{", type_name(words[0]))
        }
        Section::Field => format!("{} : {}", reading.fields[words[0]], type_name(words[1])),
        _ => {
            let (name, parameter) = (&reading.methods[words[0]], &reading.parameters[number]);
            format!("def {name} ( {parameter} : {} ) : {} {{", type_name(words[1]), type_name(words[2]))
        }
    }
}

/// Whether a text that is read agrees with its file, record by record.
fn assert_agrees(text: &[u8]) -> bool {
    let Some(file) = file(text) else { return false };
    let reading = reading(text);
    let script = Script::of(file, None);
    for (at, section) in SECTIONS.into_iter().enumerate() {
        let (_, records) = records(&script.file, section);
        assert_eq!(reading.spans[at].len(), records.len(), "{}", section.name());
        for (number, words) in records.iter().enumerate().filter(|_| section != Section::Node) {
            let shown = record_text(text, &reading, at, number);
            let begins = declared(section, number, words, &reading, script.int());
            assert!(shown.starts_with(&begins), "{shown} is not {begins}");
            assert!(!shown.contains('{') || shown.ends_with('}'), "{shown} is not whole");
        }
    }
    assert_nodes(text, &script, &reading);
    true
}

fn samples() -> Vec<Vec<u8>> {
    let directory = Path::new(env!("CARGO_MANIFEST_DIR")).join("../../samples");
    let paths = fs::read_dir(directory).unwrap().map(|entry| entry.unwrap().path());
    let texts = paths.filter(|path| path.extension().is_some_and(|ending| ending == "oolong"));
    texts.map(|path| fs::read(path).unwrap()).collect()
}

#[test]
fn samples_agree_with_their_files() {
    let read = samples().iter().filter(|text| assert_agrees(text)).count();
    assert!(read >= 5, "{read} samples were read");
}

#[test]
fn generated_texts_agree_with_their_files() {
    let read = (0..1000).filter(|&seed| assert_agrees(Generator::program(seed).as_bytes())).count();
    assert!(read >= 900, "{read} texts were read");
}

#[test]
fn written_texts_agree_with_their_files() {
    for text in [
        "let y=1in y",
        "letx",
        "(Int) - 5",
        "(x + y)",
        "(this+this)",
        "x.f = y.g = 1",
        "let n = n in n",
        "finish{async{1}async{2}};3",
        "class C implements C { def m(n : C) : C { let n = let n = n in n in n.m(n) } } let n = 1 in n",
        "class C implements C { m : C def m(m : C) : C { m.m = m.m(m) } def n(n : Int) : C { m } } m",
    ] {
        assert!(assert_agrees(text.as_bytes()), "{text} is not read");
    }
}

#[test]
fn the_deepest_text_agrees() {
    let text = "(Int) ".repeat(1023) + "1";
    assert!(assert_agrees(text.as_bytes()));
    assert_eq!(reading(text.as_bytes()).spans[5][1022], 6132..6139);
}

#[test]
fn names_have_their_numbers() {
    let text = fs::read(Path::new(env!("CARGO_MANIFEST_DIR")).join("../../samples/figure10.oolong")).unwrap();
    let reading = reading(&text);
    assert_eq!(reading.types, ["Unit", "Counter", "Cell"]);
    assert_eq!(reading.methods, ["add", "get", "init"]);
    assert_eq!(reading.fields, ["cnt"]);
    assert_eq!(reading.variables[2..], ["cnt", "cell", "cell2", "tmp"]);
    assert_eq!(reading.parameters, ["n", "n", "tmp"]);
}

#[test]
fn any_text_has_a_reading() {
    let mut random = Random(7);
    let mut texts = samples();
    texts.push(Generator::program(3).into_bytes());
    for round in 0..3000 {
        let mut text = texts[round % texts.len()].clone();
        for _ in 0..=random.below(3) {
            let at = random.below(text.len());
            match random.below(3) {
                0 => text[at] = random.below(256) as u8,
                1 => text.truncate(at + 1),
                _ => drop(text.drain(at..(at + 1 + random.below(9)).min(text.len() - 1).max(at))),
            }
        }
        let reading = reading(&text);
        for span in reading.spans.iter().flatten() {
            assert!(span.start <= span.end && span.end <= text.len());
        }
    }
    for text in ["", "interface", "class C implements", "((((", "-", "x.", "let", "\u{ff}"] {
        reading(text.as_bytes());
    }
    reading("(T)".repeat(21_845).as_bytes());
    reading("let x = ".repeat(8_192).as_bytes());
}
