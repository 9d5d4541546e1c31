//! Texts at each limit and right behind it, with the number and place that request 4 gives them.

/// A text, the number of the reply, and its place.
pub type Expected = (String, u16, u32);

pub fn limits() -> Vec<Expected> {
    [declarations(), nodes(), several(), lengths(), depths()].concat()
}

/// So many of this behind a beginning, and an end.
fn many(begin: &str, one: &str, count: usize, end: &str) -> String {
    [begin, &one.repeat(count), end].concat()
}

/// The same with a number of three digits in each.
fn numbered(begin: &str, one: [&str; 2], count: usize, end: &str) -> String {
    let all: String = (100..100 + count).map(|number| format!("{}{number}{}", one[0], one[1])).collect();
    [begin, &all, end].concat()
}

/// 16 bytes each.
fn interfaces(count: usize, end: &str) -> String {
    numbered("", ["interface I", "{}"], count, end)
}

/// 12 bytes, then 13 each.
fn signatures(count: usize, end: &str) -> String {
    many("interface I{", "m(x:Int):Int ", count, end)
}

/// 34 bytes.
const CLASS: &str = "interface I{}class C implements I{";

fn declarations() -> Vec<Expected> {
    let classes = |count| numbered("interface I{}", ["class C", " implements I{}"], count, "null");
    let fields = |count| many(CLASS, "f:Int ", count, "}null");
    let methods = |count| many(CLASS, "def m(x:Int):Int{null}", count, "}null");
    vec![
        (interfaces(64, "null"), 0, 0),
        (interfaces(65, "null"), 36, 64 * 16),
        (interfaces(899, "null"), 36, 64 * 16),
        (signatures(256, "}null"), 0, 0),
        (signatures(257, "}null"), 36, 12 + 256 * 13),
        (classes(64), 0, 0),
        (classes(65), 36, 13 + 64 * 25),
        (fields(256), 0, 0),
        (fields(257), 36, 34 + 256 * 6),
        (methods(256), 0, 0),
        (methods(257), 36, 34 + 256 * 22),
    ]
}

/// "For a record too many in text order": bodies stand before the start.
fn nodes() -> Vec<Expected> {
    let casts = |count| many("", "(Int)", count, "0");
    // 51 bytes, 5 for each node but the last, and 3.
    let body = |nodes: usize| many(&format!("{CLASS}def m(x:Int):Int{{"), "(Int)", nodes - 1, "0}}");
    vec![
        (casts(1_023), 0, 0),
        (casts(1_024), 36, 5 * 1_024),
        (casts(1_025), 36, 5 * 1_024),
        (many(&body(1_000), "(Int)", 23, "0"), 0, 0),
        (many(&body(1_000), "(Int)", 24, "0"), 36, 51 + 5 * 999 + 3 + 5 * 24),
        (many(&body(1_023), "", 0, "0"), 0, 0),
        (many(&body(1_024), "", 0, "0"), 36, 51 + 5 * 1_023 + 3),
        (many(&body(1_025), "", 0, "0"), 36, 51 + 5 * 1_024),
    ]
}

/// More than one fault: the lowest place of a number, and 34 before 35 before 36.
fn several() -> Vec<Expected> {
    let text = |text: &str| text.to_string();
    vec![
        (interfaces(64, &signatures(257, "}null")), 36, 64 * 16),
        (signatures(257, "}") + &interfaces(64, "null"), 36, 12 + 256 * 13),
        (many("let x=2147483648in ", "(Int)", 1_024, "0"), 36, 6),
        (many("", "(Int)", 1_024, "2147483648"), 36, 5 * 1_024),
        (many("", "(Int)", 1_025, "2147483648"), 36, 5 * 1_024),
        (text("let x = 2147483648 in new C"), 35, 26),
        (text("let x = 2147483648 in )"), 34, 22),
        (many("", "(Int)", 1_025, "new C"), 35, 5 * 1_025 + 4),
        (many("", "(Int)", 1_025, "new"), 34, 5 * 1_025 + 3),
        (interfaces(64, "interface I100{}null"), 35, 64 * 16 + 10),
    ]
}

fn lengths() -> Vec<Expected> {
    let padded = |text: &str, length: usize| many(text, " ", length - text.len(), "");
    let shifted = |text: &str, length: usize| many("", " ", length - text.len(), text);
    vec![
        (padded("null", 65_536), 0, 0),
        (padded("null", 65_537), 36, 0),
        (padded("", 65_536), 34, 65_536),
        (padded("", 65_537), 36, 0),
        (padded("let x = null", 65_536), 34, 65_536),
        (padded("x y", 65_536), 34, 2),
        (padded("x y", 65_537), 36, 0),
        (shifted("null", 65_536), 0, 0),
        (shifted("n ull", 65_536), 34, 65_533),
        (shifted("#", 65_536), 34, 65_535),
        (shifted("new C", 65_536), 35, 65_535),
        (shifted("2147483648", 65_536), 36, 65_526),
        ("x".repeat(65_536), 0, 0),
        ("x".repeat(65_537), 36, 0),
        (many("", "0", 65_535, "7"), 0, 0),
        ("9".repeat(65_536), 36, 0),
    ]
}

/// Expressions in expressions, to the end of the longest text.
fn depths() -> Vec<Expected> {
    let calls = |count: usize, end: &str| format!("{}x{}{end}", "x.m(".repeat(count), ")".repeat(count));
    let lets = |count: usize| format!("{}0{}", "let x=".repeat(count), "in 0".repeat(count));
    let asyncs = |count: usize| format!("{}0{}", "finish{async{".repeat(count), "}async{0}};0".repeat(count));
    vec![
        ("x.m(".repeat(16_384), 34, 65_536),
        (calls(1_023, ""), 0, 0),
        (calls(13_107, ""), 36, 4 * 1_024),
        (calls(13_106, ")"), 34, 5 * 13_106 + 1),
        (many("", "(a)", 21_845, "x"), 35, 1),
        (many("", "(Int)", 13_107, "x"), 36, 5 * 1_024),
        (many("", "(Int)", 13_107, "("), 34, 65_536),
        (many("", "(Int)", 13_107, ")"), 34, 65_535),
        (lets(511), 0, 0),
        (lets(6_000), 36, 6 * 1_024),
        (many("", "let x=0in ", 6_553, ""), 34, 65_530),
        (many("", "lock(x)in ", 6_553, "x"), 36, 10 * 1_024),
        (many("", "x.f=", 16_384, ""), 34, 65_536),
        (many("", "finish{async{", 5_041, ""), 34, 65_533),
        (asyncs(341), 0, 0),
        (asyncs(2_621), 36, 13 * 1_024),
    ]
}
