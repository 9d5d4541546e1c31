//! Writes scripts of two threads that each do one thing, where one gives a place back and the other needs one: the smallest scripts in which a full store depends on who goes first.

use super::dice::Dice;
use super::writer::Shape;

/// What a thread does with x and y, which the other has too, and z, which is null.
const DEEDS: [&str; 40] = [
    "lock(x) in 1",
    "lock(x) in x.n = 1",
    "lock(x) in (A) y",
    "lock(x) in lock(y) in 1",
    "lock(x) in finish { async { 1 } async { 2 } }; x.n",
    "x.n = 1",
    "let v = x.n in y.n = v",
    "(A) x",
    "(Int) (Int) 1",
    "(Int) lock(x) in 1",
    "let v = 1 in v",
    "let v = (Int) 1 in v",
    "(Int) let v = 1 in (Int) (Int) v",
    "(Int) (Int) let v = 1 in x.same((Int) v)",
    "x.same(1)",
    "x.binds(1)",
    "x.makes(1)",
    "x.forks(1)",
    "x.locks(1)",
    "x.calls(1)",
    "(Int) x.binds(1)",
    "let v = x.same(1) in v",
    "lock(x) in y.makes(1)",
    "y.r = new A",
    "let v = new A in v.n",
    "new A",
    "lock(x) in new A",
    "let v = new A in new A",
    "finish { async { 1 } async { 2 } }; 3",
    "(Int) finish { async { 1 } async { lock(x) in 2 } }; 3",
    "finish { async { 1 } async { 2 } }; new A",
    "finish { async { 1 } async { x.n } }; let v = (Int) 3 in v",
    "finish { async { z.n } async { new A } }; 3",
    "finish { async { let v = z.n in v } async { let v = 1 in v } }; 3",
    "z.n",
    "z.n",
    "z.same(1)",
    "let v = (Int) z.n in v",
    "(A) lock(z) in x",
    "z.r = new A",
];

/// So many of them, at the end, fail at once.
const FAILING: usize = 6;

/// What never ends by itself.
const TURNS: [&str; 4] = ["x.turns(1)", "lock(x) in x.turns(1)", "let v = x.makes_on(1) in v", "x.forks_on(1)"];

/// Methods that need room of each kind.
const HEAD: &str = "\
interface I {}
class A implements I { n : Int r : A
  def same(p : Int) : Int { p }
  def binds(p : Int) : Int { let v = p in let w = v in w }
  def makes(p : Int) : Int { let v = new A in p }
  def forks(p : Int) : Int { finish { async { 1 } async { 2 } }; p }
  def locks(p : Int) : Int { lock(this) in (Int) p }
  def calls(p : Int) : Int { this.binds(p) }
  def turns(p : Int) : Int { this.turns(p) }
  def makes_on(p : Int) : Int { let v = new A in this.makes_on(p) }
  def forks_on(p : Int) : Int { finish { async { 1 } async { this.forks_on(2) } }; p }
}
";

/// The deed of a thread with names of its own.
fn own(deed: &str, thread: usize) -> String {
    let mut made = String::new();
    for (i, sign) in deed.char_indices() {
        let beside =
            |at: Option<usize>| at.and_then(|at| deed.as_bytes().get(at)).is_some_and(u8::is_ascii_alphanumeric);
        made.push(sign);
        if matches!(sign, 'x' | 'y' | 'z') && !beside(i.checked_sub(1)) && !beside(Some(i + 1)) {
            made += &thread.to_string();
        }
    }
    made
}

/// What one of the two does.
#[derive(Clone, Copy, PartialEq, Eq)]
pub enum Side {
    Any,
    /// It fails.
    Fails,
    /// It calls methods that call themselves.
    Turns,
}

/// Two threads that each do something drawn.
pub fn text(seed: u64, shape: Shape, side: Side) -> String {
    let mut dice = Dice::of(seed);
    let any = |dice: &mut Dice| DEEDS[dice.below(DEEDS.len())];
    let (mut first, mut second) = (any(&mut dice), any(&mut dice));
    if side == Side::Fails || dice.percent(30) {
        // A failure drops what the other would still have needed.
        first = DEEDS[DEEDS.len() - 1 - dice.below(FAILING)];
    }
    if side == Side::Turns {
        second = TURNS[dice.below(TURNS.len())];
    }
    let (left, right) = if dice.percent(50) { (first, second) } else { (second, first) };
    // A last part that needs room itself would hide what the threads lack.
    around(left, right, dice.pick::<&str>(&["x", "x", LAST]), shape)
}

const LAST: &str = "let d = x.r = y in x";

/// Two threads that do this and that.
pub fn between(left: &str, right: &str, shape: Shape) -> String {
    around(left, right, LAST, shape)
}

fn around(left: &str, right: &str, last: &str, shape: Shape) -> String {
    let mut begin = String::from("let x = new A in let y = new A in let z = (A) null in\n");
    for name in ["x", "y", "z"] {
        begin += &format!("let {name}0 = {name} in let {name}1 = {name} in ");
    }
    let (left, right) = (own(left, 0), own(right, 1));
    let main = format!("finish {{ async {{ {left} }}\nasync {{ {right} }} }};\n{last}");
    match shape {
        Shape::Open => format!("{HEAD}{begin}\n{main}"),
        Shape::Cast => format!("{HEAD}(A) {begin}\n{main}"),
        Shape::Beside => {
            let waits = "async { lock(w2) in (A) w2 } };\nx";
            format!("{HEAD}let w = new A in let w2 = w in {begin}\nlock(w) in finish {{ async {{ {main} }}\n{waits}")
        }
    }
}
