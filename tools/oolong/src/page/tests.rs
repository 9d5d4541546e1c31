use super::*;
use crate::course::start_block;
use std::path::PathBuf;

/// The samples of the project.
fn sample(name: &str) -> PathBuf {
    Path::new(env!("CARGO_MANIFEST_DIR")).join("../../samples").join(name)
}

fn script(name: &str) -> Script {
    Source::load(&sample(name)).and_then(check::accepted).expect("an accepted sample")
}

/// The page of a sample's run.
fn page(name: &str, title: &str, choices: &str) -> (String, String) {
    let script = script(name);
    let mut course = Course::begin(&script, start_block(&script).expect("a block")).expect("a run");
    let mut schedule = Schedule::List { choices: schedule::choices(choices).expect("a list"), read: 0 };
    of_run(&script, title, &mut course, &mut schedule).expect("a page")
}

/// The data of a page: what stands in its JSON element.
fn data(page: &str) -> &str {
    let (_, rest) = page.split_once("<script type=\"application/json\" id=\"run\">").expect("the element");
    rest.split_once("</script>").expect("its end").0
}

/// Where JSON that begins at a byte ends; none if it is not JSON.
fn json_end(text: &[u8], at: usize) -> Option<usize> {
    match text.get(at)? {
        b'"' => string_end(text, at + 1),
        b'[' => list_end(text, at + 1, b']', &json_end),
        b'{' => list_end(text, at + 1, b'}', &|text, at| {
            let colon = string_end(text, at + 1).filter(|&colon| text.get(colon) == Some(&b':'))?;
            json_end(text, colon + 1)
        }),
        b'n' => text[at..].starts_with(b"null").then_some(at + 4),
        _ => {
            let digits = text[at..].iter().take_while(|byte| byte.is_ascii_digit() || **byte == b'-').count();
            (digits > 0).then_some(at + digits)
        }
    }
}

fn string_end(text: &[u8], mut at: usize) -> Option<usize> {
    loop {
        match text.get(at)? {
            b'"' => return Some(at + 1),
            b'\\' => at += 2,
            0..=31 | b'<' | b'>' | b'&' => return None,
            _ => at += 1,
        }
    }
}

fn list_end(text: &[u8], mut at: usize, close: u8, item: &dyn Fn(&[u8], usize) -> Option<usize>) -> Option<usize> {
    let blank = |mut at: usize| {
        while text.get(at) == Some(&b'\n') {
            at += 1;
        }
        at
    };
    at = blank(at);
    if text.get(at) == Some(&close) {
        return Some(at + 1);
    }
    loop {
        at = blank(item(text, at)?);
        match text.get(at)? {
            b',' => at = blank(at + 1),
            byte if *byte == close => return Some(at + 1),
            _ => return None,
        }
    }
}

fn is_json(text: &str) -> bool {
    json_end(text.as_bytes(), 0) == Some(text.len())
}

#[test]
fn a_text_cannot_leave_its_json() {
    let all = "a\"b\\c</script>&'\u{2028}\u{2029}\u{0}\n\t\u{7f}é";
    let wanted = "\"a\\\"b\\\\c\\u003c/script\\u003e\\u0026\\u0027\\u2028\\u2029\\u0000\\n\\u0009\\u007fé\"";
    assert_eq!(json::string(all), wanted);
    assert!(is_json(&json::string(all)));
}

#[test]
fn a_page_has_every_step_and_is_json() {
    for (name, choices, steps) in [
        ("figure10.oolong", "0:17,1:3,2,1:8,2:11,0:5", 46),
        ("accept-deadlock.oolong", "0:5,1:3", 9),
        ("accept-middle.words", "0:16,1:3,2", 21),
        ("accept-null.oolong", "0:6", 7),
    ] {
        let (page, _) = page(name, name, choices);
        assert!(is_json(data(&page)), "{name}");
        let count = data(&page).lines().filter(|line| line.starts_with("{\"s\":")).count();
        assert_eq!(count, steps, "{name}");
    }
}

#[test]
fn a_title_stays_a_title() {
    let plain = page("accept-null.oolong", "plain", "0:6").0;
    let title = "</script><script>alert(1)</script>@@DATA@@ \"'&";
    let page = page("accept-null.oolong", title, "0:6").0;
    assert_eq!(page.matches("<script").count(), plain.matches("<script").count());
    assert_eq!(page.matches("</script>").count(), plain.matches("</script>").count());
    assert!(page.contains("<h1>&lt;/script&gt;&lt;script&gt;alert(1)&lt;/script&gt;@@DATA@@ &quot;&#39;&amp;</h1>"));
    assert!(is_json(data(&page)));
}

#[test]
fn a_page_asks_for_nothing_else() {
    let (page, _) = page("figure10.oolong", "figure10.oolong", "0:44");
    let spaces = page.matches("\"http://www.w3.org/").count();
    assert_eq!(page.matches("http").count(), spaces + page.matches("http-equiv").count());
    assert!(!page.contains("src=") && !page.contains("@import") && !page.contains("url("));
}

#[test]
fn edits_make_the_new_list_of_the_old() {
    let lists: [&[u8]; 9] = [b"", b"a", b"ab", b"ba", b"abc", b"xbz", b"aabaa", b"aaa", b"abcabcabc"];
    for old in lists {
        for new in lists {
            let runs = match old.len() == new.len() {
                true => steps::differing(old, new),
                false => vec![steps::between(old, new)],
            };
            let mut made = old.to_vec();
            for (start, gone, came) in runs.into_iter().rev() {
                made.splice(start..start + gone, new[start..start + came].iter().copied());
            }
            assert_eq!(made, new);
        }
    }
}

#[test]
fn a_long_run_is_a_small_page() {
    let (page, ending) = page("accept-endless.words", "endless", "0:4096");
    assert!(page.len() < 1_000_000, "{} bytes", page.len());
    assert!(ending.contains("bindings"), "{ending}");
}

#[test]
fn a_longer_run_is_cut() {
    let (page, ending) = page("accept-deadlock.oolong", "waits", "0:5,1:2,2:30000");
    assert!(ending.contains("20,000"), "{ending}");
    assert!(data(&page).contains("20,000"));
}

#[test]
fn what_cannot_be_written_is_a_fault() {
    let folder = std::env::temp_dir();
    let fault = crate::files::write(&folder, b"page").expect_err("a folder is no file");
    assert!(fault.line.starts_with(&folder.display().to_string()) && !fault.line.contains('\n'));
}

#[test]
fn each_bad_end_has_a_page() {
    let script = script("accept-deadlock.oolong");
    let from = start_block(&script).expect("a block");
    let folder = std::env::temp_dir().join(format!("oolong-page-{}", std::process::id()));
    let list = schedule::choices("0:5,1:3").expect("a list");
    let ends = [Replayed { stop: DEADLOCK, list }];
    let (mut out, mut err) = (Vec::new(), Vec::new());
    let written = write_ends(&script, "a script", &from, &ends, &folder, &mut Streams { out: &mut out, err: &mut err });
    let page = fs::read_to_string(folder.join("deadlock.html"));
    let _ = fs::remove_dir_all(&folder);
    assert!(written.is_ok());
    assert!(page.is_ok_and(|page| is_json(data(&page)) && page.contains("deadlock after 8 moves")));
}
