//! Writes scripts whose threads each need a little room: an object, a binding, a frame, a thread, under locks and not, so that who is stopped by a full store, and who gives a place back in time,
//! depends on the schedule.

use super::dice::Dice;
use super::writer::Shape;

/// Bodies of m: each takes another amount of room.
const M: [&str; 7] = [
    "p",
    "let v = p in v",
    "lock(this) in p",
    "let v = new A in p",
    "finish { async { 1 } async { 2 } }; p",
    "let d = this.n = p in p",
    "this.m(p)",
];

struct Crowd {
    dice: Dice,
    /// The names that each thread has.
    own: Vec<Vec<String>>,
}

pub fn text(seed: u64, shape: Shape) -> String {
    let mut crowd = Crowd { dice: Dice::of(seed), own: Vec::new() };
    let mut body = || M[crowd.dice.weighed(&[10, 20, 15, 20, 20, 10, 5])];
    let mut text = format!("interface I {{ m(p : Int) : Int }}\nclass A implements I {{ n : Int r : A q : I def m(p : Int) : Int {{ {} }} }}\n", body());
    text += &format!("class B implements I {{ n : Int def m(p : Int) : Int {{ {} }} }}\n", body());
    let mut begin = String::from("let a = new A in let b = new A in\n");
    for link in ["a.r = b", "b.r = a", "a.q = new B", "b.q = a"] {
        if crowd.dice.percent(35) {
            begin += &format!("let d = {link} in ");
        }
    }
    let threads = 2 + crowd.dice.weighed(&[55, 45]);
    for thread in 0..threads {
        begin += &format!("let a{thread} = a in let b{thread} = b in ");
        crowd.own.push(vec![format!("a{thread}"), format!("b{thread}")]);
    }
    let tree = crowd.tree(0, threads);
    let last = *crowd.dice.pick(&["let d = a.q = b in a", "a", "b", "new A"]);
    let main = format!("{tree};\n{last}");
    text + &match shape {
        Shape::Open => format!("{begin}\n{main}"),
        Shape::Cast => format!("(A) {begin}\n{main}"),
        Shape::Beside => {
            let beside = "async { lock(w2) in (A) w2 } };\na";
            format!("let w = new A in let w2 = w in {begin}\nlock(w) in finish {{ async {{ {main} }}\n{beside}")
        }
    }
}

impl Crowd {
    /// A fork without its last part.
    fn tree(&mut self, first: usize, count: usize) -> String {
        let left = 1 + self.dice.below(count - 1);
        let (a, b) = (self.side(first, left), self.side(first + left, count - left));
        format!("finish {{ async {{ {a} }}\nasync {{ {b} }} }}")
    }

    fn side(&mut self, first: usize, count: usize) -> String {
        if count == 1 {
            return self.thread(first);
        }
        let held = if self.dice.percent(10) { format!("lock(a{first}) in ") } else { String::new() };
        let tree = self.tree(first, count);
        format!("{held}{tree}; {}", self.own_deed())
    }

    fn thread(&mut self, thread: usize) -> String {
        let own = self.own[thread].clone();
        let (x, y) = (self.dice.pick(&own).clone(), self.dice.pick(&own).clone());
        match self.dice.weighed(&[30, 18, 8, 8, 12, 6, 6, 8, 4]) {
            0 => format!("lock({x}) in {}", self.deed(&y)),
            1 => self.deed(&x),
            2 => format!("lock({x}) in lock({y}) in {}", self.deed(&x)),
            3 => format!("let d = {} in {}", self.deed(&x), self.deed(&y)),
            4 => format!(
                "finish {{ async {{ lock({x}) in {} }} async {{ {} }} }}; {}",
                self.deed(&x),
                self.own_deed(),
                self.own_deed()
            ),
            5 => format!("let v = {x}.r in lock(v) in {}", self.deed(&y)),
            6 => format!("let d = {} in let v = (A) null in v.n", self.deed(&x)),
            7 => format!("lock({x}) in let v = (A) null in {x}.r = v"),
            _ => format!("{x}.r = {}", self.dice.pick(&[y.as_str(), "null", "new A"])),
        }
    }

    /// What takes room, at an object.
    fn deed(&mut self, x: &str) -> String {
        match self.dice.weighed(&[40, 16, 14, 10, 10, 10]) {
            0 => self.own_deed(),
            1 => format!("{x}.m(3)"),
            2 => format!("{x}.n = {}", 10 + self.dice.below(90)),
            3 => format!("(A) {x}"),
            4 => format!("let v = {x}.q in v.m(4)"),
            _ => format!("let v = {x}.n in {x}.n = v"),
        }
    }

    /// The same at no object of others.
    fn own_deed(&mut self) -> String {
        let deeds = [
            "1",
            "new A",
            "new A",
            "let v = 1 in v",
            "let v = new A in v.n = 5",
            "(Int) 6",
            "finish { async { 1 } async { 2 } }; 3",
            "finish { async { 1 } async { new A } }; 3",
        ];
        self.dice.pick(&deeds).to_string()
    }
}
