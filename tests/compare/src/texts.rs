//! Read, on texts at every limit, on random ones and on Figure 10 with each byte changed to every other value: number, length and place of each reply, and every byte of the buffer, which has a pattern before.
//! The reader that the bench measures the library by is held to the same replies.

use second::generate::Rng;
use second::script::LONGEST;
use second::text::{read, ReadReply};
use second::text_limits::limits;
use second::texts::{any_text, Kind, FIGURE_TEN};
use std::collections::BTreeMap;
use std::time::Instant;

const NUMBERS: [u16; 4] = [0, 34, 35, 36];

/// How often each kind of text got each number.
type Tally = BTreeMap<(Kind, u16), u64>;

pub fn compare(count: u64, seed: u64) -> Result<(), String> {
    let begin = Instant::now();
    compare_limits()?;
    let changed = compare_figure_ten()?;
    println!("Figure 10 with a byte changed, {} texts: {changed:?}", 255 * FIGURE_TEN.len());
    let mut rng = Rng::new(seed);
    let mut tally = Tally::new();
    for done in 1..=count {
        let text = any_text(&mut rng);
        let reply =
            agreed(&text.bytes, text.room).map_err(|message| format!("text {done} of seed {seed}: {message}"))?;
        *tally.entry((text.kind, reply.number)).or_default() += 1;
        crate::progress(begin, done, count);
    }
    println!("{count} texts with seed {seed}: how often each kind got each number");
    println!("{:26} {}", "", NUMBERS.map(|number| format!("{number:8}")).concat());
    for kind in Kind::all() {
        let times = NUMBERS.map(|number| tally.get(&(kind, number)).copied().unwrap_or(0));
        println!("{:26} {}", format!("{kind:?}"), times.map(|times| format!("{times:8}")).concat());
    }
    let came_up = |which: &dyn Fn(Kind, u16) -> bool| tally.keys().any(|&(kind, number)| which(kind, number));
    if let Some(kind) = Kind::all().into_iter().find(|&kind| !came_up(&|other, _| other == kind)) {
        return Err(format!("no text was {kind:?}"));
    }
    match NUMBERS.into_iter().find(|&number| !came_up(&|_, other| other == number)) {
        Some(number) => Err(format!("no text got {number}")),
        None => Ok(()),
    }
}

fn compare_limits() -> Result<(), String> {
    for (text, number, place) in limits() {
        let reply = agreed(text.as_bytes(), LONGEST)?;
        if (reply.number, reply.place) != (number, place) {
            return Err(format!("a text at a limit gets {reply:?} instead of {number} at {place}"));
        }
    }
    Ok(())
}

/// How often each number came up.
fn compare_figure_ten() -> Result<BTreeMap<u16, u32>, String> {
    let mut seen = BTreeMap::new();
    for at in 0..FIGURE_TEN.len() {
        for by in 1..=255 {
            let mut bytes = FIGURE_TEN.to_vec();
            bytes[at] = bytes[at].wrapping_add(by);
            let reply = agreed(&bytes, LONGEST)?;
            *seen.entry(reply.number).or_default() += 1;
        }
    }
    Ok(seen)
}

type Read = fn(&[u8], &mut [u8]) -> ReadReply;

const READERS: [(&str, Read); 2] = [("the library", bench::library_read), ("the bench's reader", bench::reader::read)];

/// What a buffer has before the call: no byte is 0, and no two beside each other are equal. No buffer is longer.
static PATTERN: [u8; 2 * LONGEST] = {
    let mut pattern = [0; 2 * LONGEST];
    let mut at = 0;
    while at < pattern.len() {
        pattern[at] = 1 + (at % 255) as u8;
        at += 1;
    }
    pattern
};

/// The reply that all give, with a buffer of this length.
fn agreed(text: &[u8], room: usize) -> Result<ReadReply, String> {
    let mut expected_file = PATTERN[..room].to_vec();
    let expected = read(text, &mut expected_file);
    for (name, reader) in READERS {
        let mut file = PATTERN[..room].to_vec();
        let given = reader(text, &mut file);
        if given != expected {
            let text = text.escape_ascii();
            return Err(format!("{name} answers {given:?}, the second implementation {expected:?}: {text}"));
        }
        if file != expected_file {
            let at = (0..room).find(|&at| file[at] != expected_file[at]);
            return Err(format!("{name} leaves other bytes, the first at {at:?}: {}", text.escape_ascii()));
        }
    }
    Ok(expected)
}
