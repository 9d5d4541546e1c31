//! Texts with the reply, and the words of the file, that request 4 gives them.

use second::script::LONGEST;
use second::text::{read, ReadReply, LONGEST_TEXT};
use second::text_limits::limits;

const PATTERN: u8 = 0xA5;

fn reply(text: &[u8]) -> (ReadReply, Vec<u8>) {
    let mut file = vec![PATTERN; LONGEST];
    (read(text, &mut file), file)
}

/// A refusal: length 0, and no byte of the buffer changed.
fn refused(text: impl AsRef<[u8]>, number: u16, place: u32) {
    let (reply, file) = reply(text.as_ref());
    let shown = String::from_utf8_lossy(text.as_ref()).chars().take(200).collect::<String>();
    assert_eq!(reply, ReadReply { number, length: 0, place }, "{shown}");
    assert!(file.iter().all(|&byte| byte == PATTERN), "{shown}");
}

/// The file has these words and no others, and zeros are behind it.
fn has_words(text: &str, words: &[u16]) {
    let (reply, file) = reply(text.as_bytes());
    assert_eq!(reply, ReadReply { number: 0, length: 2 * words.len() as u16, place: 0 }, "{text}");
    let given: Vec<u16> = file.chunks(2).map(|pair| u16::from_le_bytes([pair[0], pair[1]])).collect();
    assert_eq!(&given[..words.len()], words, "{text}");
    assert!(given[words.len()..].iter().all(|&word| word == 0), "{text}");
}

/// The file of a start alone has these nodes.
fn is(text: &str, nodes: &[[u16; 4]]) {
    let contents = [24, 0, 24, 0, 24, 0, 24, 0, 24, 0, 24, nodes.len() as u16];
    has_words(text, &[&contents, nodes.as_flattened()].concat());
}

/// A body of a method with parameter n, in a class whose start is null, has these nodes; they have the numbers from 1 on.
fn body_is(body: &str, nodes: &[[u16; 4]]) {
    let text = format!("interface I {{}} class C implements I {{ def m(n : I) : I {{ {body} }} }} null");
    let count = 1 + nodes.len() as u16;
    let contents = [24, 1, 30, 0, 30, 1, 36, 0, 36, 1, 44, count];
    let records = [0, 0, 0, 1, 0, 1, 0, 1, 1, 1, 0, 0, 0, 0];
    has_words(&text, &[&contents[..], &records, nodes.as_flattened()].concat());
}

/// The text is read, whatever its file.
fn read_well(text: impl AsRef<[u8]>, length: u16) {
    assert_eq!(reply(text.as_ref()).0, ReadReply { number: 0, length, place: 0 });
}

const NULL: [u16; 4] = [0; 4];

#[test]
fn tokens_are_the_longest() {
    refused("1x", 34, 1);
    is("let y=1in y", &[[5, 2, 1, 2], [10, 1, 0, 0], [1, 2, 0, 0]]);
    refused("lety=1in y", 34, 4);
    is("letx", &[[1, 2, 0, 0]]);
    is("x1", &[[1, 2, 0, 0]]);
    is("_", &[[1, 2, 0, 0]]);
    refused("x 1", 34, 2);
    refused("1 1", 34, 2);
    refused("x y", 34, 2);
    is("let nullin = null in nullin", &[[5, 2, 1, 2], NULL, [1, 2, 0, 0]]);
    is("\t\n\r null \r\n\t", &[NULL]);
    is("let\ty\n=\rnull in\ny", &[[5, 2, 1, 2], NULL, [1, 2, 0, 0]]);
}

#[test]
fn words_that_are_spelled_out_are_no_names() {
    for word in ["locked", "int", "unit", "This", "INT", "Null", "lets", "in_", "asyncs", "_this", "def1", "Class"] {
        is(word, &[[1, 2, 0, 0]]);
    }
    let spelled = ["interface", "extends", "class", "implements", "def", "let", "in", "new", "finish", "async", "lock"];
    for word in spelled.into_iter().chain(["null", "Unit", "Int", "this"]) {
        refused(format!("let {word} = null in null"), 34, 4);
        refused(format!("x.{word}"), 34, 2);
        refused(format!("new {word}"), 34, 4);
        refused(format!("interface {word} {{}} null"), 34, 10);
        refused(format!("interface I {{ {word}(x : Int) : Int }} null"), 34, 14);
        refused(format!("interface I {{ m({word} : Int) : Int }} null"), 34, 16);
    }
    // Alone: those that may begin a text lack what follows, the others do not fit.
    for word in spelled {
        let begins = ["interface", "class", "let", "new", "finish", "lock"].contains(&word);
        refused(word, 34, if begins { word.len() as u32 } else { 0 });
    }
}

#[test]
fn bytes_that_begin_no_token() {
    for byte in (0..=255u8).filter(|byte| !byte.is_ascii_alphanumeric()) {
        if b"_{}():,.=;+-\t\n\r ".contains(&byte) {
            continue;
        }
        refused([byte], 34, 0);
        refused([b"let x = null in x ", &[byte][..]].concat(), 34, 18);
        refused([b"nu", &[byte][..], b"ll"].concat(), 34, 2);
        refused([b"let x", &[byte][..], b" = null in x"].concat(), 34, 5);
    }
    refused("x // a note", 34, 2);
    refused("let ä = null in null", 34, 4);
}

#[test]
fn the_end_of_the_text() {
    refused("", 34, 0);
    refused(" \n ", 34, 3);
    refused("let", 34, 3);
    refused("let x = null", 34, 12);
    refused("let x = null in ", 34, 16);
    refused("interface I", 34, 11);
    refused("interface I {", 34, 13);
    refused("interface I {}", 34, 14);
    refused("interface I {} class C implements I {}\n", 34, 39);
    refused("x.m(null", 34, 8);
    refused("-", 34, 1);
    refused("x.", 34, 2);
    refused("x+", 34, 2);
    refused("(x+x", 34, 4);
    refused("finish{async{null}async{null}};", 34, 31);
}

#[test]
fn integers() {
    is("0", &[[10, 0, 0, 0]]);
    is("5", &[[10, 5, 0, 0]]);
    is("-5", &[[10, 65_531, 65_535, 0]]);
    is("- 5", &[[10, 65_531, 65_535, 0]]);
    is("-\n5", &[[10, 65_531, 65_535, 0]]);
    is("-0", &[[10, 0, 0, 0]]);
    is("65536", &[[10, 0, 1, 0]]);
    is("-65536", &[[10, 0, 65_535, 0]]);
    is("007", &[[10, 7, 0, 0]]);
    is("2147483647", &[[10, 65_535, 32_767, 0]]);
    is("-2147483647", &[[10, 1, 32_768, 0]]);
    is("-2147483648", &[[10, 0, 32_768, 0]]);
    is(&format!("-{}2147483648", "0".repeat(5_000)), &[[10, 0, 32_768, 0]]);
    refused("2147483648", 36, 0);
    refused("-2147483649", 36, 0);
    refused("  - 2147483649", 36, 2);
    refused("let x = -2147483649 in x", 36, 8);
    refused("let x = 2147483648 in 2147483648", 36, 8);
    refused("let x = 2147483647 in - 4294967296", 36, 22);
    refused("18446744073709551616", 36, 0);
    refused("let x = 18446744073709551621 in 0", 36, 8);
    refused("9".repeat(60_000), 36, 0);
    refused("--5", 34, 1);
    refused("- x", 34, 2);
    refused("+5", 34, 0);
    refused("1 + 1", 34, 2);
    refused("(5)", 34, 1);
}

#[test]
fn each_form_of_an_expression() {
    is("null", &[NULL]);
    is("this", &[[1, 0, 0, 0]]);
    is("x", &[[1, 2, 0, 0]]);
    is("x.f", &[[2, 2, 0, 0]]);
    is("this . f = x", &[[3, 0, 0, 1], [1, 2, 0, 0]]);
    is("x.m(null)", &[[4, 2, 0, 1], NULL]);
    is("let x = null in x", &[[5, 2, 1, 2], NULL, [1, 2, 0, 0]]);
    is("(Unit) null", &[[7, 0, 1, 0], NULL]);
    is("(Int) 1", &[[7, 1, 1, 0], [10, 1, 0, 0]]);
    is("finish {async {null} async {this}}; x", &[[8, 1, 2, 3], NULL, [1, 0, 0, 0], [1, 2, 0, 0]]);
    is("lock(this) in x", &[[9, 0, 1, 0], [1, 2, 0, 0]]);
    is("x + y", &[[11, 2, 3, 0]]);
    is("(x + y)", &[[11, 2, 3, 0]]);
    is("(this+this)", &[[11, 0, 0, 0]]);
    is("this+x", &[[11, 0, 2, 0]]);
    has_words(
        "interface I {} class C implements I {} new C",
        &[24, 1, 30, 0, 30, 1, 36, 0, 36, 0, 36, 1, 0, 0, 0, 1, 0, 0, 6, 2, 0, 0],
    );
}

#[test]
fn parts_are_in_preorder() {
    is("x.f = y.g = (x + y)", &[[3, 2, 0, 1], [3, 3, 1, 2], [11, 2, 3, 0]]);
    is("x.m(y.m(x.n(1)))", &[[4, 2, 0, 1], [4, 3, 0, 2], [4, 2, 1, 3], [10, 1, 0, 0]]);
    let twice = "let a = let b = 1 in 2 in let c = 3 in 4";
    let number = |value| [10, value, 0, 0];
    is(twice, &[[5, 2, 1, 4], [5, 3, 2, 3], number(1), number(2), [5, 4, 5, 6], number(3), number(4)]);
    let forks = "finish{async{finish{async{1}async{2}};3}async{(Unit)4}};lock(x)in 5";
    let nodes = [[8, 1, 5, 7], [8, 2, 3, 4], number(1), number(2), number(3), [7, 0, 6, 0], number(4), [9, 2, 8, 0]];
    is(forks, &[&nodes[..], &[number(5)]].concat());
}

#[test]
fn what_no_expression_is() {
    refused("x + y + z", 34, 6);
    refused("x + 1", 34, 4);
    refused("x.f + y", 34, 4);
    refused("x.m(null).f", 34, 9);
    refused("x.f.g", 34, 3);
    refused("x.f = ", 34, 6);
    refused("(x)", 34, 3);
    refused("(x", 34, 2);
    refused("(x.f)", 34, 2);
    refused("((Unit) null)", 34, 1);
    refused("(null)", 34, 1);
    refused("(this)", 34, 5);
    refused("(this) null", 34, 5);
    refused("(Unit + x)", 34, 6);
    refused("(Int)", 34, 5);
    refused("(x + y", 34, 6);
    refused("(x + y) + z", 34, 8);
    refused("(x + y).f", 34, 7);
    refused("()", 34, 1);
    refused("let x = null", 34, 12);
    refused("let x null in x", 34, 6);
    refused("let x = null; x", 34, 12);
    refused("let this = null in null", 34, 4);
    refused("lock(null) in x", 34, 5);
    refused("lock((x)) in x", 34, 5);
    refused("lock x in x", 34, 5);
    refused("lock(x.f) in x", 34, 6);
    refused("new C()", 34, 5);
    refused("x.m()", 34, 4);
    refused("x.m(a, b)", 34, 5);
    refused("this = x", 34, 5);
    refused("x = y", 34, 2);
    refused("finish{async{null}};null", 34, 18);
    refused("finish{async{null}async{null}};", 34, 31);
    refused("finish{async{null}async{null}}null", 34, 30);
    refused("finish{async{null}async{null}async{null}};null", 34, 29);
    refused("locked{null}", 34, 6);
    refused("null null", 34, 5);
    refused("null;", 34, 4);
    refused("null)", 34, 4);
    refused("null}", 34, 4);
    refused("null in", 34, 5);
    refused("x.m(let a = 1)", 34, 13);
    refused("let a = x.m(1 in a", 34, 14);
    refused("finish{async{x.m(1}async{null}};null", 34, 18);
    refused("let a = finish{async{1}async{2}}; 3 in 4 in 5", 34, 41);
}

#[test]
fn declarations() {
    refused("class C implements I {} interface I {} null", 34, 24);
    refused("null interface I {}", 34, 5);
    refused("class C implements I{def m(x:I):I{null}f:I}null", 34, 39);
    refused("interface I extends J null", 34, 22);
    refused("interface I extends J, K {} null", 34, 25);
    refused("interface I extends Unit, I null", 34, 20);
    refused("interface I { f : Int } null", 34, 16);
    refused("interface I { def m(x : Int) : Int } null", 34, 14);
    refused("interface I { m(x : Int) : Int; } null", 34, 30);
    refused("interface I null", 34, 12);
    refused("interface I {} class C {} null", 34, 23);
    refused("interface I {} class C implements Int {} null", 34, 34);
    refused("interface I {} class C implements I { m(x : Int) : Int } null", 34, 39);
    refused("interface I {} class C implements I { def m(x : Int) : Int { } } null", 34, 61);
    refused("interface I {} class C implements I { def m(this : Int) : Int { null } } null", 34, 44);
    refused("interface I {} class C implements I { f : this } null", 34, 42);
    let text = "interface I { m(x : C) : J } interface J extends K, I interface K {}
        class C implements J { f : Unit g : C def m(x : C) : J { null } def n(y : Int) : Unit { this.g } }
        class D implements K {} new D";
    has_words(
        text,
        &[
            &[24, 3, 42, 1, 48, 2, 60, 2, 68, 2, 84, 3][..],
            &[0, 1, 0, 1, 3, 1, 0, 0, 0],
            &[0, 4, 2],
            &[2, 2, 2, 3, 0, 0],
            &[0, 0, 1, 4],
            &[0, 4, 2, 1, 1, 6, 0, 2],
            &[6, 5, 0, 0, 0, 0, 0, 0, 2, 0, 1, 0],
        ]
        .concat(),
    );
}

#[test]
fn type_names_declared_nowhere_or_again() {
    refused("new C", 35, 4);
    refused("(C) null", 35, 1);
    refused("(x) y", 35, 1);
    refused("interface I extends J, K null", 35, 20);
    refused("interface I extends I, K null", 35, 23);
    refused("interface I { m(x : T) : U } null", 35, 20);
    refused("interface I { m(x : I) : U } null", 35, 25);
    refused("class C implements I {} null", 35, 19);
    refused("interface I {} class C implements I { f : i } null", 35, 42);
    refused("interface I {} class C implements I { def m(x : m) : I { null } } null", 35, 48);
    refused("interface I {} class C implements I { def m(x : I) : x { null } } null", 35, 53);
    refused("interface I {} class C implements I { def m(x : I) : I { new D } } null", 35, 61);
    refused("interface I {} interface I {} null", 35, 25);
    refused("interface I {} class I implements I {} null", 35, 21);
    refused("interface I {} class C implements I {} class C implements I {} null", 35, 45);
    refused("interface I {} interface I {} interface I {} null", 35, 25);
    // The first of both sorts.
    refused("interface I extends J, J interface I {} null", 35, 20);
    refused("interface I {} interface I {} new C", 35, 25);
    refused("interface I {} class I implements J {} null", 35, 21);
    // 34 is asked first.
    refused("new C )", 34, 6);
    refused("interface I {} interface I {} ", 34, 30);
    // A declaration may come later than its use, and be used for itself, for what it is not, or never.
    read_well("interface J extends I, J interface I {} class C implements C {} new I", 24 + 12 + 6 + 8);
}

#[test]
fn names_are_numbered_by_sort() {
    let text =
        "interface I { a(b : Int) : Int } class C implements I { a : Int b : Int def b(a : Int) : Int { this.a } }
        let a = new C in a.b(1)";
    has_words(
        text,
        &[
            &[24, 1, 30, 1, 36, 1, 42, 2, 50, 1, 58, 5][..],
            &[0, 1, 0],
            &[0, 3, 3],
            &[1, 2, 1],
            &[0, 3, 1, 3],
            &[1, 3, 3, 4],
            &[5, 2, 1, 2, 6, 2, 0, 0, 4, 2, 1, 3, 10, 1, 0, 0],
            &[2, 0, 0, 0],
        ]
        .concat(),
    );
    // By first appearance in the text, where bodies stand before the start; the file has the start first.
    let text =
        "interface I {} class C implements I { def m(x : I) : I { b.g } def n(x : I) : I { a.p(x.f) } } c.n(a.f)";
    has_words(
        text,
        &[
            &[24, 1, 30, 0, 30, 1, 36, 0, 36, 2, 52, 5][..],
            &[0, 0, 0],
            &[1, 0, 2],
            &[0, 1, 1, 2, 1, 1, 1, 3],
            &[4, 4, 1, 1, 2, 3, 1, 0],
            &[2, 2, 0, 0],
            &[4, 3, 2, 4, 2, 1, 1, 0],
        ]
        .concat(),
    );
    is("let a = b in let b = a in c", &[[5, 2, 1, 2], [1, 3, 0, 0], [5, 3, 3, 4], [1, 2, 0, 0], [1, 4, 0, 0]]);
    is("x.x(x.x)", &[[4, 2, 0, 1], [2, 2, 0, 0]]);
}

#[test]
fn the_parameter_and_lets_of_its_name() {
    let n = [1, 1, 0, 0];
    let other = |number| [1, number, 0, 0];
    body_is("n", &[n]);
    body_is("let n = n in n", &[[5, 2, 2, 3], n, other(2)]);
    body_is("let n = n in let n = n in n", &[[5, 2, 2, 3], n, [5, 2, 4, 5], other(2), other(2)]);
    // Behind the first part of a let.
    body_is("let y = let n = n in n in n", &[[5, 2, 2, 5], [5, 3, 3, 4], n, other(3), n]);
    // Behind a second part that a first part ends with, twice.
    body_is("let a = let b = let n = n in n in n in n", &[[5, 2, 2, 7], [5, 3, 3, 6], [5, 4, 4, 5], n, other(4), n, n]);
    // Behind the first async and behind the second.
    body_is(
        "finish{async{let n = n in n}async{let n = n in n}};n",
        &[[8, 2, 5, 8], [5, 2, 3, 4], n, other(2), [5, 2, 6, 7], n, other(2), n],
    );
    body_is("finish{async{let n = n in n}async{n}};n", &[[8, 2, 5, 6], [5, 2, 3, 4], n, other(2), n, n]);
    // In an argument, and where the call is a first part, behind it.
    body_is("let y = n.m(let n = n in n) in n", &[[5, 2, 2, 6], [4, 1, 0, 3], [5, 3, 4, 5], n, other(3), n]);
    body_is(
        "let n = null in let y = n.m(n) in n",
        &[[5, 2, 2, 3], NULL, [5, 3, 4, 6], [4, 2, 0, 5], other(2), other(2)],
    );
    // All that a second part has.
    body_is(
        "let n = null in finish{async{n}async{n}};n",
        &[[5, 2, 2, 3], NULL, [8, 4, 5, 6], other(2), other(2), other(2)],
    );
    body_is("let n = null in lock(n) in n.f = n + n", &[[5, 2, 2, 3], NULL, [9, 2, 4, 0], [3, 2, 0, 5], [11, 2, 2, 0]]);
    body_is("lock(n) in n.f = (n + n)", &[[9, 1, 2, 0], [3, 1, 0, 3], [11, 1, 1, 0]]);
    body_is("let n = n.f in (I) n.f", &[[5, 2, 2, 3], [2, 1, 0, 0], [7, 1, 4, 0], [2, 2, 0, 0]]);
    // Another name hides nothing, and a parameter's own place is no appearance.
    body_is("let m = n in n", &[[5, 2, 2, 3], n, n]);
    body_is("x", &[other(2)]);
}

#[test]
fn one_table_of_variables_for_all_bodies() {
    let text = "interface I {} class C implements I {
        def m(n : I) : I { let x = n in y } def m(x : I) : I { let n = x in y } } let z = n in x";
    has_words(
        text,
        &[
            &[24, 1, 30, 0, 30, 1, 36, 0, 36, 2, 52, 9][..],
            &[0, 0, 0],
            &[1, 0, 2],
            &[0, 1, 1, 3, 0, 1, 1, 6],
            // x is 2, y 3, n 4, z 5.
            &[5, 5, 1, 2, 1, 4, 0, 0, 1, 2, 0, 0],
            &[5, 2, 4, 5, 1, 1, 0, 0, 1, 3, 0, 0],
            &[5, 4, 7, 8, 1, 1, 0, 0, 1, 3, 0, 0],
        ]
        .concat(),
    );
}

#[test]
fn limits_from_both_sides() {
    for (text, number, place) in limits() {
        match number {
            0 => assert_eq!((reply(text.as_bytes()).0.number, place), (0, 0)),
            _ => refused(text, number, place),
        }
    }
    assert!(limits().iter().any(|(text, ..)| text.len() == LONGEST_TEXT));
}

#[test]
fn full_sections() {
    let methods = "def m(x:Int):Int{0}".repeat(256);
    let class = |number: usize| format!("class C{number} implements I0{{}}");
    let interfaces: String = (1..64).map(|number| format!("interface I{number} extends I0,I0 ")).collect();
    let text = [
        format!("interface I0{{{}}}{interfaces}", "m(x:Int):Int ".repeat(256)),
        format!("class C implements I0{{{}{methods}}}", "f:Int ".repeat(256)),
        (1..64).map(class).collect(),
        format!("{}0", "(Int)".repeat(767)),
    ];
    read_well(text.concat(), 13_592);
}

#[test]
fn lengths_of_the_buffer() {
    for room in [0, 1, 13_591, 13_593, 20_000] {
        for text in ["null", "", "new C", "2147483648"] {
            let mut file = vec![PATTERN; room];
            assert_eq!(read(text.as_bytes(), &mut file), ReadReply { number: 36, length: 0, place: 0 });
            assert!(file.iter().all(|&byte| byte == PATTERN));
        }
    }
}

#[test]
fn figure_ten() {
    let text = include_str!("../../../samples/figure10.oolong");
    let words = [
        &[24, 1, 30, 2, 42, 1, 48, 1, 52, 3, 76, 24][..],
        &[0, 2, 0],
        &[0, 3, 0, 1, 3, 3],
        &[1, 1, 3],
        &[0, 3],
        &[2, 3, 0, 17, 0, 3, 0, 19, 1, 3, 3, 23],
        &[5, 3, 1, 2, 6, 2, 0, 0],                // let cell = new Cell in
        &[5, 4, 3, 5, 7, 1, 4, 0, 1, 3, 0, 0],    // let cell2 = (Counter) cell in
        &[5, 5, 6, 8, 4, 3, 2, 7, 10, 0, 0, 0],   // let tmp = cell.init(0) in
        &[8, 9, 12, 15],                          // finish
        &[9, 3, 10, 0, 4, 3, 0, 11, 10, 1, 0, 0], // lock(cell) in cell.add(1)
        &[9, 4, 13, 0, 4, 4, 0, 14, 10, 2, 0, 0], // lock(cell2) in cell2.add(2)
        &[4, 3, 1, 16, 10, 0, 0, 0],              // cell.get(0)
        &[3, 0, 0, 18, 1, 1, 0, 0],               // this.cnt = n
        &[5, 2, 20, 21, 2, 0, 0, 0],              // let cnt = this.cnt in
        &[3, 0, 0, 22, 11, 2, 1, 0],              // this.cnt = (cnt + n)
        &[2, 0, 0, 0],                            // this.cnt
    ];
    has_words(text, &words.concat());
    has_words(&text.replace("(cnt + n)", "cnt + n"), &words.concat());
    assert_eq!(words.concat().len(), 268 / 2);
}

/// Types 1 and 2 of two samples: an empty list and its class.
const I_AND_C: [u16; 6] = [0, 0, 0, 1, 0, 0];

#[test]
fn sample_texts() {
    let contents = |nodes| [24, 1, 30, 0, 30, 1, 36, 0, 36, 0, 36, nodes];
    let nodes = [
        &[5, 2, 1, 2, 6, 2, 0, 0, 9, 2, 3, 0][..], // let x = new C in lock(x) in
        &[8, 4, 6, 8],                             // finish
        &[7, 0, 5, 0, 0, 0, 0, 0],                 // (Unit) null
        &[9, 2, 7, 0, 1, 2, 0, 0, 1, 2, 0, 0],     // lock(x) in x, x
    ];
    let deadlock = include_str!("../../../samples/accept-deadlock.oolong");
    has_words(deadlock, &[&contents(9)[..], &I_AND_C, &nodes.concat()].concat());
    let nodes = [5, 2, 1, 3, 7, 2, 2, 0, 0, 0, 0, 0, 9, 2, 4, 0, 1, 2, 0, 0];
    let null = include_str!("../../../samples/accept-null.oolong");
    has_words(null, &[&contents(5)[..], &I_AND_C, &nodes].concat());
    let sum = include_str!("../../../samples/accept-sum.oolong");
    is(sum, &[[5, 2, 1, 2], [10, 65_534, 32_767, 0], [5, 3, 3, 4], [10, 1, 0, 0], [11, 2, 3, 0]]);
    refused(include_str!("../../../samples/refuse-34-token.oolong"), 34, 144);
    refused(include_str!("../../../samples/refuse-35-type.oolong"), 35, 30);
    refused(include_str!("../../../samples/refuse-36-integer.oolong"), 36, 207);
}
