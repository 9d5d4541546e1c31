//! Scripts that count: threads add numbers to the fields of shared objects, most of them under locks. Figure 10 is one of
//! this kind. Some sums leave the range.

use crate::expr::{number_words, NUMBER, SUM};
use crate::generate::{lay_out, Rng};
use crate::script::Script;

/// Types of such a script.
const COUNTER: u16 = 1;
const CELL: u16 = 2;
const INT: u16 = 3;
/// Names of its methods: add and get are the interface's.
const ADD: u16 = 0;
const GET: u16 = 1;
const DOUBLE: u16 = 2;
/// The parameter, and the first of the variables that lets bind.
const THIS: u16 = 0;
const PARAMETER: u16 = 1;
const FIRST: u16 = 2;

/// A script that must be accepted. Its start's type is Int or Unit.
pub fn counters(rng: &mut Rng) -> Vec<u8> {
    let fields = 1 + rng.below(4) as u16;
    let mut counters =
        Counters { fields, large: rng.one_in(3), nodes: vec![[0; 4]], next: FIRST, rng: Rng::new(rng.bits()) };
    let [add, get, double] = [counters.add_body(), counters.get_body(), counters.double_body()];
    let start = counters.start();
    let mut nodes = counters.nodes;
    nodes[0] = nodes[start as usize];
    let mut script = Script {
        interfaces: vec![[0, 2, 0]],
        signatures: vec![[ADD, INT, 0], [GET, INT, INT]],
        classes: vec![[COUNTER, fields, 3]],
        fields: (0..fields).map(|name| [name, INT]).collect(),
        methods: vec![[ADD, INT, 0, add], [GET, INT, INT, get], [DOUBLE, INT, INT, double]],
        nodes,
    };
    lay_out(&mut script, rng);
    script.encode()
}

/// A variable that names a cell, and its type.
#[derive(Clone, Copy)]
struct Cell {
    variable: u16,
    ty: u16,
}

struct Counters {
    rng: Rng,
    /// Fields of the class, all of type Int.
    fields: u16,
    /// Constants are often near an end of the range.
    large: bool,
    /// Node 0 is kept for the start.
    nodes: Vec<[u16; 4]>,
    /// The next variable.
    next: u16,
}

impl Counters {
    fn emit(&mut self, node: [u16; 4]) -> u16 {
        self.nodes.push(node);
        (self.nodes.len() - 1) as u16
    }

    fn variable(&mut self) -> u16 {
        self.next += 1;
        self.next - 1
    }

    fn field(&mut self) -> u16 {
        self.rng.below(self.fields as usize) as u16
    }

    fn constant(&mut self) -> u16 {
        // A field begins at 0, so that an end of the range is often met exactly.
        let number = match self.rng.below(4) {
            0 if self.large => [i32::MAX, i32::MIN][self.rng.below(2)],
            1 | 2 if self.large => self.rng.number(),
            _ => self.rng.below(10) as i32 - 2,
        };
        let [low, high] = number_words(number);
        self.emit([NUMBER, low, high, 0])
    }

    /// let c = this.f in this.f = c + n, or with a let for the sum, or in a lock of its own.
    fn add_body(&mut self) -> u16 {
        let (field, count, sum) = (self.field(), self.variable(), self.variable());
        let read = self.emit([2, THIS, field, 0]);
        let operands = if self.rng.one_in(2) { [count, PARAMETER] } else { [PARAMETER, count] };
        let added = self.emit([SUM, operands[0], operands[1], 0]);
        let write = if self.rng.one_in(2) {
            self.emit([3, THIS, field, added])
        } else {
            let value = self.emit([1, sum, 0, 0]);
            let write = self.emit([3, THIS, field, value]);
            self.emit([5, sum, added, write])
        };
        let body = self.emit([5, count, read, write]);
        if self.rng.one_in(4) {
            return self.emit([9, THIS, body, 0]);
        }
        body
    }

    fn get_body(&mut self) -> u16 {
        let field = self.field();
        self.emit([2, THIS, field, 0])
    }

    /// let s = n + n in let t = (this.f = s) in this.double(s): from 1 on it fails at 2,147,483,648, or at once what it is
    /// given; 0 goes on until a store is full.
    fn double_body(&mut self) -> u16 {
        let (field, sum, unit) = (self.field(), self.variable(), self.variable());
        let added = self.emit([SUM, PARAMETER, PARAMETER, 0]);
        let [value, argument] = [(); 2].map(|_| self.emit([1, sum, 0, 0]));
        let write = self.emit([3, THIS, field, value]);
        let again = self.emit([4, THIS, DOUBLE, argument]);
        let rest = self.emit([5, unit, write, again]);
        self.emit([5, sum, added, rest])
    }

    /// One or two cells.
    fn start(&mut self) -> u16 {
        let count = 1 + self.rng.below(2);
        let cells: Vec<Cell> = (0..count).map(|_| Cell { variable: self.variable(), ty: CELL }).collect();
        let rest = self.threads(&cells, 3);
        cells.iter().fold(rest, |rest, cell| {
            let new = self.emit([6, CELL, 0, 0]);
            self.emit([5, cell.variable, new, rest])
        })
    }

    /// What a thread does with its cells: counts, and forks at most so deep.
    fn threads(&mut self, cells: &[Cell], depth: usize) -> u16 {
        let before = if self.rng.one_in(2) { self.rng.below(3) } else { 0 };
        let rest = if depth > 0 && !self.rng.one_in(3) { self.fork(cells, depth) } else { self.count(cells) };
        (0..before).fold(rest, |rest, _| {
            let (first, variable) = (self.count(cells), self.variable());
            self.emit([5, variable, first, rest])
        })
    }

    /// let d = cell in finish {async ..} {async ..}; cell.get(0), with an alias of each cell for the right async.
    fn fork(&mut self, cells: &[Cell], depth: usize) -> u16 {
        let aliases: Vec<Cell> = cells
            .iter()
            .map(|cell| Cell { variable: self.variable(), ty: if self.rng.one_in(2) { COUNTER } else { cell.ty } })
            .collect();
        let [left, right] = [cells, &aliases].map(|cells| self.threads(cells, depth - 1));
        let last = self.call(cells[0], GET);
        let mut rest = self.emit([8, left, right, last]);
        // The right async has none of its parent's locks: it may wait for ever.
        if self.rng.one_in(8) {
            rest = self.emit([9, cells[0].variable, rest, 0]);
        }
        aliases.iter().zip(cells).fold(rest, |rest, (alias, cell)| {
            let same = self.emit([1, cell.variable, 0, 0]);
            let first = if alias.ty == cell.ty { same } else { self.emit([7, alias.ty, same, 0]) };
            self.emit([5, alias.variable, first, rest])
        })
    }

    fn call(&mut self, cell: Cell, method: u16) -> u16 {
        let argument = self.constant();
        self.emit([4, cell.variable, method, argument])
    }

    /// A call, mostly under the cell's lock, or those of two cells; doubling needs the class.
    fn count(&mut self, cells: &[Cell]) -> u16 {
        let cell = cells[self.rng.below(cells.len())];
        let method = match self.rng.below(8) {
            0 if cell.ty == CELL => DOUBLE,
            0..=2 => GET,
            _ => ADD,
        };
        let call = self.call(cell, method);
        let locks = [0, 1, 1, 2, 2][self.rng.below(5)];
        (0..locks).fold(call, |body, outer| {
            let locked = if outer == 0 { cell } else { cells[self.rng.below(cells.len())] };
            self.emit([9, locked.variable, body, 0])
        })
    }
}
