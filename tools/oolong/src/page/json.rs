//! JSON, written so that it can stand in a script element of an HTML page.

/// A text. What could end the element or a line of a script, and all that is no ordinary sign, is written by its number.
pub fn string(text: &str) -> String {
    let mut made = String::from("\"");
    for sign in text.chars() {
        match sign {
            '"' => made.push_str("\\\""),
            '\\' => made.push_str("\\\\"),
            '\n' => made.push_str("\\n"),
            '<' | '>' | '&' | '\'' | '\u{2028}' | '\u{2029}' | '\u{7f}'..='\u{9f}' | '\0'..='\u{1f}' => {
                made.push_str(&format!("\\u{:04x}", u32::from(sign)));
            }
            _ => made.push(sign),
        }
    }
    made.push('"');
    made
}

pub fn array(items: impl IntoIterator<Item = String>) -> String {
    format!("[{}]", items.into_iter().collect::<Vec<_>>().join(","))
}

pub fn strings(items: impl IntoIterator<Item = String>) -> String {
    array(items.into_iter().map(|item| string(&item)))
}

/// The names stand in the order given.
pub fn object<'a>(members: impl IntoIterator<Item = (&'a str, String)>) -> String {
    let member = |(name, value): (&str, String)| format!("{}:{value}", string(name));
    format!("{{{}}}", members.into_iter().map(member).collect::<Vec<_>>().join(","))
}

/// A number that may be missing.
pub fn number(number: Option<usize>) -> String {
    number.map_or("null".into(), |number| number.to_string())
}
