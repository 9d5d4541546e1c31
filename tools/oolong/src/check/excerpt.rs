//! A line of a text with a mark under it.

use std::ops::Range;

/// Columns of a line that are shown at the most.
const WINDOW: usize = 100;

/// Columns that are shown in front of the mark where a line is cut.
const BEFORE: usize = 40;

/// The bytes of the line that a place is in, without its line feed.
fn line_around(text: &[u8], place: usize) -> Range<usize> {
    let place = place.min(text.len());
    let (before, behind) = text.split_at(place);
    let start = before.iter().rposition(|&byte| byte == b'\n').map_or(0, |feed| feed + 1);
    let end = behind.iter().position(|&byte| byte == b'\n').map_or(text.len(), |feed| place + feed);
    start..end
}

/// Line and column of a place, from 1; a column is a byte.
pub fn position(text: &[u8], place: usize) -> (usize, usize) {
    let place = place.min(text.len());
    let feeds = text.iter().take(place).filter(|&&byte| byte == b'\n').count();
    (feeds + 1, place - line_around(text, place).start + 1)
}

/// One sign for each byte, so that the mark stands under the right one.
fn sign(byte: &u8) -> char {
    match byte {
        b'\t' => ' ',
        b' '..=b'~' => char::from(*byte),
        _ => '?',
    }
}

/// The first line of what stands in the span, and a mark under it. At the text's end it is the last line that has a token, with the mark behind it.
pub fn marked(text: &[u8], span: Range<usize>) -> Vec<String> {
    let at_end = span.start >= text.len();
    let tokens_end = text.iter().rposition(|byte| !b"\t\n\r ".contains(byte)).map_or(0, |last| last + 1);
    let place = if at_end { tokens_end } else { span.start };
    let mut line = line_around(text, place);
    if line.end > place && text.get(line.end - 1) == Some(&b'\r') {
        line.end -= 1;
    }
    let (number, _) = position(text, place);

    let cut = line.end - line.start > WINDOW;
    let last_start = line.end.saturating_sub(WINDOW).max(line.start);
    let start = if cut { place.saturating_sub(BEFORE).clamp(line.start, last_start) } else { line.start };
    let end = if cut { (start + WINDOW).min(line.end) } else { line.end };
    let before = if start > line.start { ".." } else { "" };
    let behind = if end < line.end { ".." } else { "" };
    let shown: String = text.get(start..end).unwrap_or(b"").iter().map(sign).collect();

    let length = if at_end { 1 } else { span.end.min(end).saturating_sub(place).max(1) };
    let indent = " ".repeat(before.len() + place - start);
    let mark = format!("{indent}^{}", "~".repeat(length - 1));
    vec![format!("{number:>6} | {before}{shown}{behind}"), format!("{:>6} | {mark}", "")]
}
