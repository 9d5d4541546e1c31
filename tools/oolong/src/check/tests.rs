use super::types::Types;
use super::{accepted, command, judged};
use crate::fault::REFUSED;
use crate::program::Streams;
use crate::script::Script;
use crate::source::{Content, Source};
use std::fs;
use std::path::{Path, PathBuf};

mod golden;

fn directory() -> PathBuf {
    Path::new(env!("CARGO_MANIFEST_DIR")).join("../../samples")
}

fn sample(name: &str) -> Source {
    Source { path: name.into(), ..Source::load(&directory().join(name)).unwrap() }
}

fn text(text: &[u8]) -> Source {
    Source { path: "it.oolong".into(), content: Content::Text(text.to_vec()) }
}

/// The lines of a verdict; none if the script is accepted.
fn verdict(source: Source) -> Vec<String> {
    judged(source).err().map_or(vec![], |verdict| verdict.lines)
}

/// The last line of the verdict on a text: what to do.
fn advice(of: &str) -> String {
    verdict(text(of.as_bytes())).pop().unwrap_or_default().trim().to_string()
}

fn samples() -> Vec<Source> {
    let paths = fs::read_dir(directory()).unwrap().map(|entry| entry.unwrap().path());
    let scripts = paths.filter(|path| path.extension().is_some_and(|e| e == "oolong" || e == "words"));
    scripts.map(|path| Source::load(&path).unwrap()).collect()
}

fn said(path: &Path) -> (u8, String) {
    let (mut out, mut err) = (Vec::new(), Vec::new());
    let status = command(&[path.into()], &mut Streams { out: &mut out, err: &mut err });
    (status.map_or_else(|fault| fault.status, |status| status), String::from_utf8(out).unwrap())
}

#[test]
fn an_accepted_script_has_one_line() {
    let path = directory().join("figure10.oolong");
    let line = format!("{}: accepted; the start's type is Int (3); at most 3 silent moves in a row\n", path.display());
    assert_eq!(said(&path), (0, line));
}

#[test]
fn a_refused_script_is_answered() {
    let (status, out) = said(&directory().join("refuse-14-outline.oolong"));
    assert_eq!((status, out.lines().count()), (REFUSED, 5));
}

#[test]
fn what_is_no_file_is_a_fault() {
    assert_eq!(said(&directory().join("none.oolong")), (2, String::new()));
    assert_eq!(said(&directory()), (2, String::new()));
}

#[test]
fn the_first_line_is_the_fault_of_other_commands() {
    let fault = accepted(sample("refuse-12-null.words")).err().unwrap();
    assert_eq!(fault.status, REFUSED);
    let first = &verdict(sample("refuse-12-null.words"))[0];
    assert_eq!(fault.line, format!("{first}; 'oolong check' says more"));
}

/// What is inferred to be shown is what the engine infers, wherever there is a start's type.
#[test]
fn types_agree_with_the_engine() {
    let mut compared = 0;
    for source in samples() {
        if let Ok((script, reply)) = judged(source) {
            assert_eq!(Types::of(&script).inferred(0), Some(usize::from(reply.start_type)));
            compared += 1;
        }
    }
    assert!(compared > 20, "{compared} samples were compared");
}

/// Bodies fit their result types, and all else that is checked fits what is wanted of it.
#[test]
fn what_is_accepted_fits() {
    for (script, _) in samples().into_iter().filter_map(|source| judged(source).ok()) {
        let types = Types::of(&script);
        for node in 0..script.nodes.len() {
            let Some((wanted, _)) = types.wanted(node) else { continue };
            let fits = types.inferred(node).is_none_or(|inferred| types.below(inferred, wanted));
            assert!(fits, "node {node}: {}", script.expression(node));
        }
    }
}

struct Random(u64);

impl Random {
    fn below(&mut self, most: usize) -> usize {
        self.0 = self.0.wrapping_mul(6_364_136_223_846_793_005).wrapping_add(1_442_695_040_888_963_407);
        (self.0 >> 33) as usize % most.max(1)
    }

    /// Few bytes changed, cut or put in, at any place.
    fn damage(&mut self, bytes: &mut Vec<u8>) {
        for _ in 0..=self.below(3) {
            let at = self.below(bytes.len());
            match self.below(6) {
                0 if !bytes.is_empty() => bytes[at] = self.below(256) as u8,
                1 => bytes.truncate(at),
                2 => bytes.insert(at, self.below(256) as u8),
                _ if !bytes.is_empty() => bytes[at] = self.below(14) as u8,
                _ => {}
            }
        }
    }

    /// A token put in place of another, or between two.
    fn damage_text(&mut self, text: &mut Vec<u8>) {
        let tokens = crate::text::tokens(text);
        let (Some(from), Some(to)) = (tokens.get(self.below(tokens.len())), tokens.get(self.below(tokens.len())))
        else {
            return;
        };
        let token = text[from.clone()].to_vec();
        text.splice(to.clone(), token);
    }
}

/// The number of a verdict's first line.
fn number(line: &str) -> u16 {
    let rest = line.split("refused with ").nth(1).expect("a number");
    rest.split([' ', ':']).next().and_then(|number| number.parse().ok()).expect("a number")
}

/// Whether a verdict on a file has all that it must: the record, and why it gets a no.
fn assert_whole(lines: &[String]) {
    assert!(lines.iter().all(|line| line.len() < 600 && !line.contains('\n')), "{lines:?}");
    let wanted = match number(&lines[0]) {
        1..=3 | 5 => 2,
        4 | 6..=15 => 3,
        other => panic!("{other} is no number of Check"),
    };
    assert_eq!(lines.len(), wanted, "{lines:?}");
}

/// Whether a verdict on a text has all that it must, and the mark stands under the token that the first line names.
fn assert_marked(lines: &[String], text: &[u8]) {
    assert!((4..=5).contains(&lines.len()) || number(&lines[0]) == 36, "{lines:?}");
    let mark = lines.iter().position(|line| line.starts_with("       | ")).expect("a mark");
    let column = lines[mark].find('^').expect("a mark");
    let rest = lines[0].split(" at line ").nth(1);
    // At the end of the text the mark stands behind the last token.
    let Some(rest) = rest else { return assert!(lines[mark - 1].trim_end().len() <= column, "{lines:?}") };
    let mut numbers = rest.split([' ', ',', ':']).filter_map(|word| word.parse::<usize>().ok());
    let (line, at) = (numbers.next().unwrap(), numbers.next().unwrap());
    let byte = text.split(|&byte| byte == b'\n').nth(line - 1).unwrap()[at - 1];
    let shown = lines[mark - 1].as_bytes()[column];
    assert!(shown == byte || shown == b'?' && !(b' '..=b'~').contains(&byte), "{lines:?}");
}

#[test]
fn damaged_files_have_whole_verdicts() {
    let mut random = Random(5);
    let files: Vec<Vec<u8>> = samples().into_iter().filter_map(file).filter(|file| file.len() < 2_000).collect();
    let mut seen = [0; 16];
    for round in 0..12_000 {
        let mut file = files[round % files.len()].clone();
        random.damage(&mut file);
        let lines = verdict(Source { path: "it".into(), content: Content::File(file) });
        if !lines.is_empty() {
            assert_whole(&lines);
            seen[usize::from(number(&lines[0]))] += 1;
        }
    }
    assert!(seen[1..].iter().all(|&count| count > 0), "numbers that were seen: {seen:?}");
}

/// The file of a source, if it has one.
fn file(source: Source) -> Option<Vec<u8>> {
    match source.content {
        Content::File(file) => Some(file),
        Content::Text(_) => accepted(source).ok().map(|script: Script| script.file),
    }
}

#[test]
fn damaged_texts_have_whole_verdicts() {
    let mut random = Random(9);
    let texts = samples().into_iter().filter_map(|source| match source.content {
        Content::Text(text) => Some(text),
        Content::File(_) => None,
    });
    let texts: Vec<Vec<u8>> = texts.collect();
    for round in 0..6_000 {
        let mut bytes = texts[round % texts.len()].clone();
        match round % 3 {
            0 => random.damage(&mut bytes),
            _ => random.damage_text(&mut bytes),
        }
        let lines = verdict(text(&bytes));
        if !lines.is_empty() {
            assert_marked(&lines, &bytes);
        }
    }
}
