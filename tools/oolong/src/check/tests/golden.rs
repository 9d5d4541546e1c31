//! Verdicts word for word, at least one for each number.

use super::{advice, sample, text, verdict};

fn assert_verdict(name: &str, wanted: &[&str]) {
    let lines = verdict(sample(name));
    let first = wanted.first().map(|first| format!("{name}: {first}"));
    assert_eq!(lines.first().cloned(), first);
    assert_eq!(lines[1..], wanted[1..]);
}

/// Texts, each with the last line of its verdict.
fn assert_advice(rows: &[(&str, &str)]) {
    for (of, wanted) in rows {
        assert_eq!(advice(of), *wanted, "{of}");
    }
}

#[test]
fn the_layout_of_a_file() {
    assert_verdict(
        "refuse-01-length.words",
        &["refused with 1: is the file 24 to 13,592 bytes? No", "  it has 20 bytes"],
    );
    assert_verdict(
        "refuse-02-counts.words",
        &["refused with 2: is no count above its limit, and is there a node? No", "  there is no node"],
    );
    assert_verdict(
        "refuse-02-nodes.words",
        &[
            "refused with 2: is no count above its limit, and is there a node? No",
            "  there are 1,025 nodes, and 1,024 are the most",
        ],
    );
    assert_verdict(
        "refuse-03-places.words",
        &[
            "refused with 3: does each section begin where it must, and the last end with the file? No",
            "  the node section is said to begin at byte 26, and must at 24",
        ],
    );
    assert_verdict(
        "refuse-05-owners.words",
        &[
            "refused with 5: do the owners' counts add up to the counts of signatures, fields and methods? No",
            "  the classes count 1 field, and the file has 0",
        ],
    );
}

#[test]
fn records_of_a_file() {
    assert_verdict(
        "refuse-04-interface.words",
        &[
            "refused with 4 at interface 0, byte 24 of the file: is each interface a list, or a join of two earlier interfaces? No",
            "  words 1 1 1",
            "  it extends itself; only interfaces that stand before it can be joined",
        ],
    );
    assert_verdict(
        "refuse-06-type.words",
        &[
            "refused with 6 at node 0, byte 36 of the file: is each type a type, a class's interface an interface, what a new makes a class? No",
            "  words 6 1 0 0",
            "  a new makes objects of classes only, and this is type 1, an interface",
        ],
    );
    assert_verdict(
        "refuse-07-node.words",
        &[
            "refused with 7 at node 2, byte 40 of the file: has each node a known kind, words and parts that fit it, and one use? No",
            "  words 0 0 0 0",
            "  nothing uses it, as a part or as a body",
        ],
    );
    assert_verdict(
        "refuse-08-name.words",
        &[
            "refused with 8 at field 1, byte 40 of the file: is no name twice in one list or class, and has no class more than 8 fields? No",
            "  words 7 1",
            "  f7 stands in the same class already: field 0",
        ],
    );
}

#[test]
fn interfaces_and_classes() {
    assert_verdict(
        "refuse-09-join.words",
        &[
            "refused with 9 at interface 2, byte 36 of the file: has a join, if it gets one method name twice, the same types each time? No",
            "  interface T3 extends T1, T2",
            "  T1 has m5(Unit) : Unit, and T2 has m5(Unit) : T1",
        ],
    );
    assert_verdict(
        "refuse-10-class.words",
        &[
            "refused with 10 at class 0, byte 36 of the file: has each class every method of its interface, with the same types? No",
            "  class T2 implements T1 {..}",
            "  T1 wants m5(Unit) : Unit, and it has no m5",
        ],
    );
}

#[test]
fn variables_and_nulls() {
    assert_verdict(
        "refuse-11-variable.words",
        &[
            "refused with 11 at node 0, byte 24 of the file: is each variable bound? No",
            "  in the start: v2",
            "  nothing binds v2 here; a let binds its variable behind its 'in' only",
        ],
    );
    assert_verdict(
        "refuse-11-sum.words",
        &[
            "refused with 11 at node 2, byte 52 of the file: is each variable bound? No",
            "  in the start: v2 + v3",
            "  nothing binds v3 here; a let binds its variable behind its 'in' only",
        ],
    );
    assert_verdict(
        "refuse-12-null.words",
        &[
            "refused with 12 at node 0, byte 24 of the file: is no null inferred? No",
            "  in the start: null",
            "  say its type with a cast: (T) null, where T is Unit, an interface or a class",
        ],
    );
    assert_verdict(
        "refuse-12-null-end.words",
        &[
            "refused with 12 at node 2, byte 52 of the file: is no null inferred? No",
            "  in the start: null",
            "  say its type with a cast: (T) null, where T is Unit, an interface or a class",
        ],
    );
}

#[test]
fn members() {
    assert_verdict(
        "refuse-13-lock-int.words",
        &[
            "refused with 13 at node 2, byte 40 of the file: has the target's type the field or method, and is no number locked? No",
            "  in the start: lock(v2) in ..",
            "  v2 is of type Int, and a number has no lock",
        ],
    );
    assert_verdict(
        "refuse-13-member.words",
        &[
            "refused with 13 at node 2, byte 52 of the file: has the target's type the field or method, and is no number locked? No",
            "  in the start: v2.f9",
            "  v2 is of type T2, which has no field f9; its fields: none",
        ],
    );
}

#[test]
fn types_that_do_not_fit() {
    assert_verdict(
        "refuse-14-fit.words",
        &[
            "refused with 14 at node 6, byte 84 of the file: is each inferred type below the one that is wanted? No",
            "  in the start: v3",
            "  T1 where T2 is wanted, by the cast; a cast goes up only, as from a class to its interface",
        ],
    );
    assert_verdict(
        "refuse-14-joins.words",
        &[
            "refused with 14 at node 1, byte 422 of the file: is each inferred type below the one that is wanted? No",
            "  in the start: new T65",
            "  T65 where Unit is wanted, by the cast",
        ],
    );
    assert_verdict(
        "refuse-14-last-part.words",
        &[
            "refused with 14 at node 4, byte 68 of the file: is each inferred type below the one that is wanted? No",
            "  in the start: v2",
            "  T2 where Unit is wanted, by the cast",
        ],
    );
}

#[test]
fn nulls_and_sums_that_do_not_fit() {
    assert_verdict(
        "refuse-14-null-int.words",
        &[
            "refused with 14 at node 1, byte 32 of the file: is each inferred type below the one that is wanted? No",
            "  in the start: null",
            "  null where Int is wanted, by the cast; a null is no number",
        ],
    );
    assert_verdict(
        "refuse-14-sum.words",
        &[
            "refused with 14 at node 4, byte 68 of the file: is each inferred type below the one that is wanted? No",
            "  in the start: v2 + v3",
            "  T2 where Int is wanted, for v2; both variables of a sum are numbers",
        ],
    );
}

#[test]
fn variables_that_are_shared() {
    assert_verdict(
        "refuse-15-sharing.words",
        &[
            "refused with 15 at node 2, byte 52 of the file: have the two asyncs of a fork no free variable in common? No",
            "  in the start: finish { async { .. } async { .. } }; ..",
            "  both use v2; bind its value to a second variable in front of the fork, with let other = v2 in",
        ],
    );
    assert_verdict(
        "refuse-15-sum.words",
        &[
            "refused with 15 at node 4, byte 56 of the file: have the two asyncs of a fork no free variable in common? No",
            "  in the start: finish { async { .. } async { .. } }; ..",
            "  both use v3; bind its value to a second variable in front of the fork, with let other = v3 in",
        ],
    );
}

#[test]
fn types_of_a_text_that_do_not_fit() {
    assert_verdict(
        "refuse-14-cast.oolong",
        &[
            "refused with 14 at line 6, column 5: is each inferred type below the one that is wanted? No",
            "  node 6, byte 84 of its script file, in the start: y",
            "     6 | (C) y",
            "       |     ^",
            "  I where C is wanted, by the cast; a cast goes up only, as from a class to its interface",
        ],
    );
    assert_verdict(
        "refuse-14-outline.oolong",
        &[
            "refused with 14 at line 19, column 14: is each inferred type below the one that is wanted? No",
            "  node 8, byte 128 of its script file, in the start: outline",
            "    19 | petal.fill = outline",
            "       |              ^~~~~~~",
            "  Outline where Fill is wanted, for the field fill of Petal",
        ],
    );
}

#[test]
fn tokens_that_do_not_fit() {
    assert_verdict(
        "refuse-34-end.oolong",
        &[
            "refused with 34 at the end of the text, line 7, column 1: the text ends too soon",
            "     5 |     let next = c.next in next",
            "       |                              ^",
            "  here fits: '}', '.' or '+'",
        ],
    );
    assert_verdict(
        "refuse-34-token.oolong",
        &[
            "refused with 34 at line 9, column 5: the token does not fit what stands before it",
            "     9 |     this.cnt = cnt + n",
            "       |     ^~~~",
            "  here fits: 'in', '(' or '='",
        ],
    );
}

#[test]
fn declarations() {
    assert_verdict(
        "refuse-35-again.oolong",
        &[
            "refused with 35 at line 3, column 7: a type's name is declared again",
            "     3 | class Thread implements Thread {}",
            "       |       ^~~~~~",
            "  Thread is declared at line 1, column 11 already",
        ],
    );
    assert_verdict(
        "refuse-35-type.oolong",
        &[
            "refused with 35 at line 2, column 11: a type's name is declared nowhere",
            "     2 |   add(n : int) : Unit",
            "       |           ^~~",
            "  there is no type int; there is Int",
        ],
    );
}

#[test]
fn too_much() {
    assert_verdict(
        "refuse-36-integer.oolong",
        &[
            "refused with 36 at line 14, column 10: an integer is outside -2,147,483,648 to 2,147,483,647",
            "    14 | cell.add(- 2147483649)",
            "       |          ^~~~~~~~~~~~",
        ],
    );
}

const ON_DECLARATIONS: &[(&str, &str)] = &[
    (
        "interface I {} interface J extends I, K interface K {} 1",
        "it extends K, an interface; only interfaces that stand before it can be joined",
    ),
    (
        "interface I extends C, I class C implements I {} 1",
        "it extends C, a class; only interfaces that stand before it can be joined",
    ),
    (
        "interface I {} class C implements I {} new I",
        "a new makes objects of classes only, and this is I, an interface",
    ),
    (
        "interface I {} class C implements I {} class D implements C {} 1",
        "what it implements must be an interface, and this is C, a class",
    ),
    (
        "interface I {} class C implements I {\n  cnt : Int\n  cnt : C\n} 1",
        "cnt stands in the same class already: line 2",
    ),
    ("interface I { m(p : Int) : Int m(q : Unit) : Int } 1", "m stands in the same interface already: line 1"),
    (
        "interface I {} class C implements I { a:I b:I c:I d:I e:I f:I g:I h:I i:I } 1",
        "it has 9 fields, and 8 are the most",
    ),
    (
        "interface A { m(p : Int) : Int } interface B { m(p : Int) : Unit } interface C extends A, B 1",
        "A has m(Int) : Int, and B has m(Int) : Unit",
    ),
    (
        "interface A { m(p : Int) : Int } class C implements A { def m(q : Int) : Unit { null } } 1",
        "A wants m(Int) : Int, and it has m(Int) : Unit",
    ),
];

#[test]
fn advice_on_declarations() {
    assert_advice(ON_DECLARATIONS);
}

const ON_VARIABLES_AND_MEMBERS: &[(&str, &str)] = &[
        (
            "let x = y in x",
            "nothing binds y here; a let binds its variable behind its 'in' only",
        ),
        (
            "this.f",
            "the start is in no method, so it has no this",
        ),
        (
            "interface I { m(p : Int) : Int } class C implements I { x : Int def m(p : Int) : Int { let q = 1 in p + qq } } 1",
            "nothing binds qq here; a let binds its variable behind its 'in' only",
        ),
        (
            "let x = 1 in null",
            "say its type with a cast: (T) null, where T is Unit, an interface or a class",
        ),
        (
            "interface I { m(p : Int) : Int } class C implements I { x : Int def m(p : Int) : Int { this.y = p } } 1",
            "this is of type C, which has no field y; its fields: x",
        ),
        (
            "interface I { m(p : Int) : Int } class C implements I { x : Int def m(p : Int) : Int { p } } let c = new C in let i = (I) c in i.x",
            "i is of type I, which has no field x; only classes have fields",
        ),
        (
            "interface I { m(p : Int) : Int } class C implements I { x : Int def m(p : Int) : Int { p } } let c = new C in c.n(1)",
            "c is of type C, which has no method n; its methods: m",
        ),
        (
            "interface I { m(p : Int) : Int } class C implements I { x : Int def m(p : Int) : Int { p } } let c = new C in let i = (I) c in i.n(1)",
            "i is of type I, which has no method n; its methods: m",
        ),
        (
            "let x = 1 in x.n(x)",
            "x is of type Int, which has no method n; only interfaces and classes have methods",
        ),
        (
            "let x = 1 in x.f",
            "x is of type Int, which has no field f; only classes have fields",
        ),
];

#[test]
fn advice_on_variables_and_members() {
    assert_advice(ON_VARIABLES_AND_MEMBERS);
}

const ON_TYPES: &[(&str, &str)] = &[
        (
            "interface I { m(p : Int) : Int } class C implements I { x : Int def m(p : Int) : Int { let u = this.x in lock(this) in this.x = u } } 1",
            "Unit where Int is wanted, as the result of m",
        ),
        (
            "interface I { m(p : Int) : Int } class C implements I { x : Int def m(p : Int) : Int { this.m(null) } } 1",
            "null where Int is wanted, for the parameter of m of C; a null is no number",
        ),
        (
            "interface I { m(p : Int) : Int } class C implements I { x : Int def m(p : Int) : Int { null } } 1",
            "null where Int is wanted, as the result of m; a null is no number",
        ),
        (
            "interface I { m(p : Int) : Int } class C implements I { x : Int def m(p : Int) : Int { this.m(this) } } 1",
            "C where Int is wanted, for the parameter of m of C",
        ),
        (
            "interface I { m(p : Int) : Int } class C implements I { x : Int def m(p : Int) : Int { p } } let c = new C in c.x = c",
            "C where Int is wanted, for the field x of C",
        ),
        (
            "interface I { m(p : Int) : Int } class C implements I { x : Int def m(p : Int) : Int { p } } let c = new C in (Unit) c",
            "C where Unit is wanted, by the cast",
        ),
        (
            "interface I { m(p : Int) : Int } class C implements I { x : Int def m(p : Int) : Int { p } } let c = new C in let u = c.x = 1 in c + u",
            "C where Int is wanted, for c; both variables of a sum are numbers",
        ),
        (
            "interface I { m(p : Int) : Int } class C implements I { x : Int def m(p : Int) : Int { p } } let c = new C in let i = (I) c in (C) i",
            "I where C is wanted, by the cast; a cast goes up only, as from a class to its interface",
        ),
        (
            "interface I { m(p : Int) : Int } class C implements I { x : Int def m(p : Int) : Int { p } } let c = new C in finish { async { 1 } async { 2 } }; c.x = let r = c.m(1) in c",
            "C where Int is wanted, for the field x of C",
        ),
        (
            "interface I { m(p : Int) : Int } class C implements I { x : Int def m(p : Int) : Int { p } } let c = new C in finish { async { c } async { lock(c) in 1 } }; 1",
            "both use c; bind its value to a second variable in front of the fork, with let other = c in",
        ),
        (
            "interface I { m(p : Int) : Int } class C implements I { x : Int def m(p : Int) : Int { finish { async { this.x } async { let p = this in 1 } }; p } } 1",
            "both use this; bind its value to a second variable in front of the fork, with let other = this in",
        ),
];

#[test]
fn advice_on_types() {
    assert_advice(ON_TYPES);
}

const ON_TOKENS: &[(&str, &str)] = &[
    ("", "here fits: 'interface', 'class' or an expression"),
    ("let lock = 1 in lock", "here fits: a name; 'lock' is never a name"),
    ("x // note", "there are no comments"),
    ("new C x", "here fits: the end of the text"),
    ("(x)", "here fits: an expression"),
    ("x.m()", "a call has one argument; where the parameter is of type Unit it is null"),
    ("x + 1", "a sum has two variables; give the number a name: let one = 1 in x + one"),
    ("let i = 1 in i = 2", "a variable keeps its value; a let binds a new one, and only fields are written"),
    ("\u{feff}1", "a byte order mark stands here; save the text without it"),
    ("let caf\u{e9} = 1 in 1", "this byte is no ASCII; names are letters A to Z and a to z, digits and _"),
    ("let this = 1 in 1", "here fits: a name; 'this' is never a name"),
    ("interface I {} class C implements I { def m", "here fits: '('"),
    ("interface I {", "here fits: '}' or a name"),
    ("(T) 1", "no interface and no class has the name T"),
];

#[test]
fn advice_on_tokens() {
    assert_advice(ON_TOKENS);
}

/// The line and the mark of a text's verdict.
fn marked(of: &str) -> Vec<String> {
    let lines = verdict(text(of.as_bytes())).into_iter();
    lines.filter(|line| line.get(6..9) == Some(" | ")).map(|line| line.chars().skip(9).collect()).collect()
}

#[test]
fn marks_stand_under_tokens() {
    assert_eq!(marked("let\tx = 1\tin\r\n\tlock(x) in\r\n\tx"), [" lock(x) in", " ^~~~~~~~~~"]);
    assert_eq!(marked("let x =\t\u{e9} in x"), ["let x = ?? in x", "        ^"]);
    assert_eq!(marked("x.f = \u{0}"), ["x.f = ?", "      ^"]);
    assert_eq!(marked("let x = 1 in\n\n  \n"), ["let x = 1 in", "            ^"]);
    assert_eq!(marked(""), ["", "^"]);
}

#[test]
fn long_lines_are_cut_around_the_mark() {
    let lets = "let x = 1 in ";
    let middle = lets.repeat(20) + "let z = y in " + &lets.repeat(20) + "x";
    let lines = marked(&middle);
    assert_eq!((lines[0].len(), &lines[0][..2], &lines[0][102..]), (104, "..", ".."));
    assert_eq!((lines[1].len(), &lines[0][42..43], &lines[1][42..]), (43, "y", "^"));
    let lines = marked(&(lets.repeat(20) + "y"));
    assert_eq!((lines[0].len(), lines[1].len(), &lines[0][101..]), (102, 102, "y"));
    let lines = marked(&("y.f(".to_string() + &lets.repeat(20) + "x)"));
    assert_eq!((&lines[0][..4], lines[1].len()), ("y.f(", 100));
}

#[test]
fn long_names_are_cut() {
    let lines = verdict(text(&[b'y'; 60_000]));
    assert!(lines.len() == 5 && lines.iter().all(|line| line.len() < 500), "{lines:?}");
}

#[test]
fn a_text_that_is_too_long_has_no_place() {
    let lines = verdict(text(&[b'y'; 65_537]));
    assert_eq!(lines, ["it.oolong: refused with 36: the text is above 65,536 bytes"]);
}

#[test]
fn records_that_are_too_many_are_counted() {
    let many = |what: &str, count: usize| advice(&("interface I {} ".to_string() + &what.repeat(count) + "1"));
    assert_eq!(many("(I) ", 1_024), "here begins one more than 1,024 nodes, which are the most");
    let classes = (0..65).map(|i| format!("class C{i} implements C1 {{}} ")).collect::<String>();
    assert_eq!(advice(&(classes + "1")), "here begins one more than 64 classes, which are the most");
}
