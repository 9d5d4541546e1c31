//! Writes scripts whose threads do one or two short deeds each, all to the same few objects: races, lock orders, and objects that go from thread to thread through a field.

use super::dice::Dice;

const HEAD: &str = "\
interface I { m(p : Int) : Int g(p : A) : A }
class A implements I { n : Int k : Int r : A q : I
";

/// Bodies of m and of g, which may call m: with a lock, without, with an object made; what they do, they do to their own object or to the one that they are given.
const M: [&str; 5] = [
    "p",
    "lock(this) in let v = this.n in let d = this.n = p in v",
    "let d = this.n = p in p",
    "let v = this.n in v",
    "let v = new A in v.n",
];
const G: [&str; 7] = [
    "p",
    "let d = this.r = p in p",
    "lock(this) in this.r",
    "lock(p) in let d = p.n = 7 in p",
    "let d = p.n = 6 in p",
    "let d = this.m(8) in p",
    "let d = p.m(9) in p",
];

/// The threads' tree: which of them stand at the two sides of a fork.
enum Tree {
    Thread(usize),
    Fork(Box<Tree>, Box<Tree>),
}

struct Deeds {
    dice: Dice,
    numbers: usize,
    /// The aliases that each thread has.
    own: Vec<Vec<String>>,
}

pub fn text(seed: u64) -> String {
    let mut deeds = Deeds { dice: Dice::of(seed), numbers: 10, own: Vec::new() };
    let threads = 2 + deeds.dice.weighed(&[30, 65, 5]);
    let mut text = String::from(HEAD);
    for class in ["", "}\nclass B implements I { n : Int r : A\n"] {
        let (m, g) = (*deeds.dice.pick(&M), *deeds.dice.pick(&G));
        text += &format!("{class}  def m(p : Int) : Int {{ {m} }}\n  def g(p : A) : A {{ {g} }}\n");
    }
    text += "}\nlet a = new A in\nlet b = new A in\nlet c = new B in\n";
    for link in ["a.r = b", "b.r = a", "a.r = a", "a.q = new B", "b.q = a"] {
        if deeds.dice.percent(30) {
            text += &format!("let d = {link} in\n");
        }
    }
    for thread in 0..threads {
        text += &deeds.aliases(thread);
    }
    let tree = deeds.tree(0, threads);
    let last = *deeds.dice.pick(&["let d = a.q = b in a", "let d = a.q = b in a", "a", "b", "a.n"]);
    text + &deeds.expression(&tree, last, threads)
}

impl Deeds {
    /// Names of a thread's own for the objects, not always for both.
    fn aliases(&mut self, thread: usize) -> String {
        let mut text = String::new();
        let mut own = Vec::new();
        let drawn = 1 + self.dice.weighed(&[25, 25, 50]);
        for (i, object) in ["a", "b"].iter().enumerate() {
            if drawn >> i & 1 == 1 {
                let name = format!("{object}{thread}");
                text += &format!("let {name} = {object} in ");
                own.push(name);
            }
        }
        self.own.push(own);
        text + &format!("let c{thread} = c in\n")
    }

    fn tree(&mut self, first: usize, count: usize) -> Tree {
        if count == 1 {
            return Tree::Thread(first);
        }
        let left = 1 + self.dice.below(count - 1);
        Tree::Fork(Box::new(self.tree(first, left)), Box::new(self.tree(first + left, count - left)))
    }

    fn expression(&mut self, tree: &Tree, last: &str, threads: usize) -> String {
        let Tree::Fork(left, right) = tree else {
            let Tree::Thread(thread) = tree else { return String::new() };
            return self.thread(*thread, threads);
        };
        let held = if self.dice.percent(10) { self.held(left) } else { String::new() };
        let end = self.number();
        let (a, b) = (self.expression(left, &end, threads), self.expression(right, "0", threads));
        format!("{held}finish {{ async {{ {a} }}\nasync {{ {b} }} }};\n{last}")
    }

    /// A lock that is held across a fork, by a name of the left side's first thread.
    fn held(&mut self, left: &Tree) -> String {
        let Tree::Thread(thread) = left else { return String::new() };
        format!("lock({}) in ", self.dice.pick(&self.own[*thread].clone()))
    }

    fn thread(&mut self, thread: usize, threads: usize) -> String {
        let deed = self.deed(thread);
        match threads == 2 && self.dice.percent(40) {
            true => format!("let d = {deed} in {}", self.deed(thread)),
            false => deed,
        }
    }

    fn number(&mut self) -> String {
        self.numbers += 1;
        if self.dice.percent(5) {
            "2147483647".into()
        } else {
            self.numbers.to_string()
        }
    }

    fn deed(&mut self, thread: usize) -> String {
        let own = self.own[thread].clone();
        let (x, y, c) = (self.dice.pick(&own), self.dice.pick(&own), self.number());
        let field = *self.dice.pick(&["n", "n", "n", "k"]);
        match self.dice.weighed(&[10, 12, 10, 14, 14, 6, 30, 6, 4, 3, 3, 12, 5, 10, 3]) {
            0 => format!("{x}.{field} = {c}"),
            1 => format!("let v = {x}.n in {y}.k = v"),
            2 => format!("let v = {x}.k in {y}.n = v"),
            3 => format!("{x}.r = {y}"),
            4 => format!("let v = {x}.r in v.{field} = {c}"),
            5 => format!("let v = {x}.r in lock(v) in v.n = {c}"),
            6 => format!("lock({x}) in lock({y}) in {x}.n = {c}"),
            7 => format!("let v = {x}.r in {y}.r = v"),
            8 => format!("lock({x}) in let v = {x}.n in {x}.n = v + v"),
            9 => format!("let v = {x}.q in v.m({c})"),
            10 => format!("{x}.q = new B"),
            11 => format!("{x}.g({y})"),
            13 => format!("c{thread}.g({x})"),
            14 => format!("{x}.q = c{thread}"),
            _ => format!("{x}.m({c})"),
        }
    }
}
