//! 34 and its place by what they mean, without any choice of the reader's: the grammar as it is written, and by Earley's method the longest beginning of a text that some program begins with.

use second::generate::Rng;
use second::script::LONGEST;
use second::text::read;
use second::text::tokens::{tokens, Sort, Token};
use second::texts::any_text;
use std::collections::{BTreeMap, HashSet};

/// A line for each production. `name` and `digits` are tokens of that sort, what has no line of its own is spelled.
const GRAMMAR: &str = "
    P    = Ids Cds e
    Ids  =
    Ids  = Ids Id
    Cds  =
    Cds  = Cds Cd
    Id   = interface name { Msigs }
    Id   = interface name extends name , name
    Cd   = class name implements name { Fds Mds }
    Msigs =
    Msigs = Msigs Msig
    Fds  =
    Fds  = Fds Fd
    Mds  =
    Mds  = Mds Md
    Msig = name ( name : t ) : t
    Fd   = name : t
    Md   = def Msig { e }
    t    = name
    t    = Unit
    t    = Int
    x    = name
    x    = this
    e    = null
    e    = x
    e    = x . name
    e    = x . name = e
    e    = x . name ( e )
    e    = let name = e in e
    e    = new name
    e    = ( t ) e
    e    = finish { async { e } async { e } } ; e
    e    = lock ( x ) in e
    e    = digits
    e    = - digits
    e    = x + x
    e    = ( x + x )
";

struct Production {
    left: &'static str,
    right: Vec<&'static str>,
}

/// A production as far as it is read, and the number of tokens before it.
#[derive(Clone, Copy, PartialEq, Eq, Hash)]
struct Item {
    production: usize,
    read: usize,
    from: usize,
}

struct Grammar {
    productions: Vec<Production>,
    by_left: BTreeMap<&'static str, Vec<usize>>,
}

impl Grammar {
    fn new() -> Grammar {
        let lines = GRAMMAR.lines().filter(|line| !line.trim().is_empty());
        let sides = lines.map(|line| line.split_once('=').expect("a production has two sides"));
        let production = |(left, right): (&'static str, &'static str)| Production {
            left: left.trim(),
            right: right.split_whitespace().collect(),
        };
        let productions: Vec<Production> = sides.map(production).collect();
        let mut by_left: BTreeMap<&str, Vec<usize>> = BTreeMap::new();
        for (number, production) in productions.iter().enumerate() {
            by_left.entry(production.left).or_default().push(number);
        }
        Grammar { productions, by_left }
    }

    fn next(&self, item: Item) -> Option<&'static str> {
        self.productions[item.production].right.get(item.read).copied()
    }

    fn is_empty(&self, left: &str) -> bool {
        self.by_left[left].iter().any(|&number| self.productions[number].right.is_empty())
    }

    /// All items that these lead to without reading a token.
    fn closed(&self, items: Vec<Item>, sets: &[Vec<Item>]) -> Vec<Item> {
        let here = sets.len();
        let mut seen = HashSet::new();
        let mut all: Vec<Item> = vec![];
        let mut to_do = items;
        while let Some(item) = to_do.pop() {
            if !seen.insert(item) {
                continue;
            }
            all.push(item);
            let on = |item: Item| Item { read: item.read + 1, ..item };
            match self.next(item) {
                Some(symbol) if self.by_left.contains_key(symbol) => {
                    let begun = |&production: &usize| Item { production, read: 0, from: here };
                    to_do.extend(self.by_left[symbol].iter().map(begun));
                    if self.is_empty(symbol) {
                        to_do.push(on(item));
                    }
                }
                Some(_) => {}
                // What began here and is empty is passed over above.
                None if item.from == here => {}
                None => {
                    let left = self.productions[item.production].left;
                    let waiting = sets[item.from].iter().copied().filter(|&waiting| self.next(waiting) == Some(left));
                    to_do.extend(waiting.map(on));
                }
            }
        }
        all
    }

    /// How many tokens some program begins with, and whether these are a whole program.
    fn judge(&self, tokens: &[Token]) -> (usize, bool) {
        let start = self.by_left["P"].iter().map(|&production| Item { production, read: 0, from: 0 }).collect();
        let mut sets: Vec<Vec<Item>> = vec![];
        let mut present = self.closed(start, &sets);
        for token in tokens {
            let fits = |item: &Item| self.next(*item).is_some_and(|symbol| is(token, symbol));
            let read: Vec<Item> =
                present.iter().copied().filter(fits).map(|item| Item { read: item.read + 1, ..item }).collect();
            if read.is_empty() {
                return (sets.len(), false);
            }
            sets.push(present);
            present = self.closed(read, &sets);
        }
        let is_whole = |item: &Item| self.productions[item.production].left == "P" && self.next(*item).is_none();
        (sets.len(), present.iter().any(is_whole))
    }
}

fn is(token: &Token, symbol: &str) -> bool {
    match symbol {
        "name" => token.sort == Sort::Name,
        "digits" => token.sort == Sort::Digits,
        _ => token.is(symbol),
    }
}

/// Longer texts take too long.
const MOST_TOKENS: usize = 300;

#[test]
fn number_34_is_at_the_first_token_that_no_program_goes_on_with() {
    let grammar = Grammar::new();
    let mut rng = Rng::new(3);
    let mut seen = [0; 3];
    for _ in 0..20_000 {
        let text = any_text(&mut rng).bytes;
        let tokens = tokens(&text);
        if tokens.len() > MOST_TOKENS {
            continue;
        }
        let (count, is_program) = grammar.judge(&tokens[..tokens.len() - 1]);
        let reply = read(&text, &mut vec![0; LONGEST]);
        if text.len() > second::text::LONGEST_TEXT {
            continue;
        }
        let shown = String::from_utf8_lossy(&text);
        assert_eq!(reply.number == 34, !is_program, "{shown}");
        if !is_program {
            assert_eq!(reply.place as usize, tokens[count].at, "{shown}");
        }
        seen[if is_program { 0 } else { 1 + usize::from(count + 1 == tokens.len()) }] += 1;
    }
    assert!(seen.iter().all(|&times| times > 500), "{seen:?}");
}
