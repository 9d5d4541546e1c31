//! Every word of two small blocks, changed in turn to several others: Offer and Run in all their numbers and in every byte that they may write; and the number is one that `second::parts` has for
//! a change at that byte. Words with a meaning are changed again where each part, one at a time, is bad besides.

use crate::calls::{agree, agree_on_block, Tally};
use second::cases::{Case, Origin};
use second::sweep::{small_blocks, sweep, Small};
use second::FLAGS;

const NUMBERS: [u16; 4] = [0, 21, 26, 27];

pub fn compare() -> Result<(), String> {
    small_blocks().iter().try_for_each(compare_block)
}

fn compare_block(small: &Small) -> Result<(), String> {
    let (script, block, choices) = (small.script.clone(), small.block.clone(), small.choices.to_vec());
    let (flags, answers) = (vec![7; FLAGS], Some(vec![0]));
    let mut case = Case { script, block, choices, flags, origin: Origin::Made, answers };
    agree(&case, &mut Tally::default()).map_err(|message| format!("{}: {message}", small.name))?;
    let [mut alone, mut beside] = [(); 2].map(|_| Tally::default());
    sweep(small, |block, damage| {
        case.block.copy_from_slice(block);
        case.answers = Some(damage.answers());
        agree_on_block(&case, if damage.beside.is_none() { &mut alone } else { &mut beside })
    })?;
    came_up(&format!("{}, a word changed", small.name), &alone, &NUMBERS)?;
    came_up(&format!("{}, a word changed and a part bad besides", small.name), &beside, &NUMBERS[1..])
}

/// Each of these answers came up, and no other.
fn came_up(what: &str, tally: &Tally, numbers: &[u16]) -> Result<(), String> {
    for call in ["Offer", "Run"] {
        let times = NUMBERS.map(|number| tally.times(call, number));
        println!("{what}: how often {call} answered {NUMBERS:?}: {times:?}");
        if NUMBERS.iter().zip(times).any(|(number, times)| numbers.contains(number) != (times > 0)) {
            return Err(format!("only {numbers:?} were to come up, and each of them"));
        }
    }
    Ok(())
}
