//! Who moves next: the options of `play` and `page`.

use crate::args::{Args, Named};
use crate::fault::Fault;
use crate::layout::FLAGS;

pub const OPTIONS: [Named; 5] = [
    ("--left", None),
    ("--right", None),
    ("--fair", None),
    ("--random", Some("a seed")),
    ("--choices", Some("a list")),
];

/// So many choices a list may have; a longer one is a slip of the hand.
const CHOICES_MOST: usize = 10_000_000;

#[derive(Debug)]
pub enum Schedule {
    /// The first position that can move.
    Left,
    /// The last.
    Right,
    /// Each in turn: the first that can move behind the one that moved last.
    Fair { last: usize },
    /// Drawn among those that can move (xorshift).
    Random { row: u64 },
    /// These, in order, whether they can move or not.
    List { choices: Vec<u8>, read: usize },
}

impl Schedule {
    /// The schedule that the options name: the leftmost first, if they name none.
    pub fn of(args: &Args) -> Result<Schedule, Fault> {
        let given: Vec<&str> = OPTIONS.iter().map(|option| option.0).filter(|name| args.has(name)).collect();
        if let [first, second, ..] = given[..] {
            return Err(Fault::usage(format!("{first} and {second} are two schedules: name one")));
        }
        match given.first().copied() {
            Some("--right") => Ok(Schedule::Right),
            Some("--fair") => Ok(Schedule::Fair { last: FLAGS - 1 }),
            Some("--random") => Ok(Schedule::random(args.number("--random")?.unwrap_or(0))),
            Some("--choices") => {
                let list = args.value("--choices").map(|list| list.to_string_lossy()).unwrap_or_default();
                Ok(Schedule::List { choices: choices(&list)?, read: 0 })
            }
            _ => Ok(Schedule::Left),
        }
    }

    /// Schedules that are worth a try where not all can be.
    pub fn probes() -> Vec<Schedule> {
        let plain = [Schedule::Left, Schedule::Right, Schedule::Fair { last: FLAGS - 1 }];
        plain.into_iter().chain((1..=5).map(Schedule::random)).collect()
    }

    fn random(seed: u64) -> Schedule {
        Schedule::Random { row: seed.wrapping_mul(0x9E37_79B9_7F4A_7C15) | 1 }
    }

    /// The next choice, where these positions can move; none where the list is at its end or nobody can.
    pub fn next(&mut self, flags: &[u8]) -> Option<u8> {
        let able = || (0..flags.len()).filter(|&position| flags[position] == 1);
        let chosen = match self {
            Schedule::Left => able().next(),
            Schedule::Right => able().next_back(),
            Schedule::Fair { last } => {
                let turn = able().find(|position| position > last).or_else(|| able().next());
                *last = turn.unwrap_or(*last);
                turn
            }
            Schedule::Random { row } => {
                *row ^= *row << 13;
                *row ^= *row >> 7;
                *row ^= *row << 17;
                able().nth((*row % able().count().max(1) as u64) as usize)
            }
            Schedule::List { choices, read } => {
                let choice = choices.get(*read).map(|&choice| usize::from(choice));
                *read += 1;
                choice
            }
        };
        chosen.map(|position| position as u8)
    }
}

/// A list as it is typed: positions with commas between them, and `P:N` for position P so many times.
pub fn choices(list: &str) -> Result<Vec<u8>, Fault> {
    let mut choices = Vec::new();
    for item in list.split(',').map(str::trim).filter(|item| !item.is_empty()) {
        let (position, times) = item.split_once(':').unwrap_or((item, "1"));
        let (Ok(position), Ok(times)) = (position.parse::<u8>(), times.parse::<usize>()) else {
            return Err(Fault::usage(format!(
                "'{item}' is no choice: a position from 0 to 255, or one with :N for N times"
            )));
        };
        if times > CHOICES_MOST - choices.len() {
            return Err(Fault::usage(format!("the list has more than {CHOICES_MOST} choices")));
        }
        choices.extend(std::iter::repeat_n(position, times));
    }
    Ok(choices)
}

/// A list as `choices` reads it.
pub fn written(choices: &[u8]) -> String {
    let same = choices.chunk_by(|a, b| a == b);
    let items = same.map(|run| if run.len() == 1 { run[0].to_string() } else { format!("{}:{}", run[0], run.len()) });
    items.collect::<Vec<_>>().join(",")
}

#[cfg(test)]
mod tests {
    use super::{choices, written, Schedule};

    #[test]
    fn a_list_is_read_as_it_is_written() {
        for list in [vec![], vec![0], vec![0, 0, 0], vec![0, 1, 1, 255, 255, 0], vec![7; 4_100]] {
            assert_eq!(choices(&written(&list)).expect("a list"), list);
        }
        assert_eq!(written(&[0, 0, 1, 2, 2, 2]), "0:2,1,2:3");
        assert_eq!(choices(" 0, 1:2 ,3,").expect("blanks and a comma at the end"), [0, 1, 1, 3]);
    }

    #[test]
    fn what_is_no_list_is_refused() {
        for list in ["256", "-1", "x", "1:", ":2", "1:x", "0:99999999999", "1;2", "0:10000000,0"] {
            assert!(choices(list).is_err(), "{list}");
        }
    }

    #[test]
    fn each_schedule_takes_whom_it_says() {
        let flags = [0, 1, 0, 1, 1];
        assert_eq!(Schedule::Left.next(&flags), Some(1));
        assert_eq!(Schedule::Right.next(&flags), Some(4));
        let mut fair = Schedule::Fair { last: 62 };
        let turns: Vec<Option<u8>> = (0..5).map(|_| fair.next(&flags)).collect();
        assert_eq!(turns, [Some(1), Some(3), Some(4), Some(1), Some(3)]);
        let mut random = Schedule::Random { row: 1 };
        let drawn: Vec<Option<u8>> = (0..100).map(|_| random.next(&flags)).collect();
        assert!([1, 3, 4].iter().all(|&position| drawn.contains(&Some(position))));
        assert!(drawn.iter().all(|position| matches!(position, Some(1 | 3 | 4))));
        assert_eq!(Schedule::Left.next(&[0; 5]), None);
    }
}
