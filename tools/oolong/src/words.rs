//! Script files that are written down word by word, as samples/*.words are: words in decimal, `#` comments, and `3*(1 4+1)` for 1 4 1 5 1 6.

/// More bytes than any script has are cut: Check refuses both alike.
const MOST: usize = 65_536;

struct Reader<'a> {
    rest: &'a [u8],
    line: usize,
    file: Vec<u8>,
}

/// The bytes of the file, or what is wrong and in which line.
pub fn file(words: &[u8]) -> Result<Vec<u8>, String> {
    let mut reader = Reader { rest: words, line: 1, file: Vec::new() };
    while reader.skip().is_some() {
        let word = reader.number()?;
        if reader.takes(b'*') {
            if !reader.takes(b'(') {
                return Err(reader.wrong("a bracket is wanted behind a *"));
            }
            reader.repeated(word)?;
        } else {
            reader.put(word)?;
        }
    }
    Ok(reader.file)
}

impl Reader<'_> {
    fn wrong(&self, what: &str) -> String {
        format!("line {}: {what}", self.line)
    }

    fn takes(&mut self, sign: u8) -> bool {
        let there = self.rest.first() == Some(&sign);
        self.rest = &self.rest[usize::from(there)..];
        there
    }

    /// Passes blanks and comments; the byte that comes next.
    fn skip(&mut self) -> Option<u8> {
        let mut comment = false;
        while let Some((&byte, rest)) = self.rest.split_first() {
            comment = (comment || byte == b'#') && byte != b'\n';
            if !comment && !byte.is_ascii_whitespace() {
                return Some(byte);
            }
            self.line += usize::from(byte == b'\n');
            self.rest = rest;
        }
        None
    }

    fn number(&mut self) -> Result<usize, String> {
        let digits = self.rest.iter().take_while(|byte| byte.is_ascii_digit()).count();
        let (number, rest) = self.rest.split_at(digits);
        self.rest = rest;
        if digits == 0 {
            return Err(self.wrong("a number is wanted"));
        }
        let value = number.iter().fold(0usize, |value, digit| (value * 10 + usize::from(digit - b'0')).min(1 << 20));
        if value > 65_535 {
            return Err(self.wrong("a number is no 16-bit word"));
        }
        Ok(value)
    }

    fn put(&mut self, word: usize) -> Result<(), String> {
        if word > 65_535 {
            return Err(self.wrong("a sum is no 16-bit word"));
        }
        if self.file.len() < MOST {
            self.file.extend([(word % 256) as u8, (word / 256) as u8]);
        }
        Ok(())
    }

    /// The words behind `times*(`, up to the bracket that ends them: each first as it stands, and each time after that with its `+` more.
    fn repeated(&mut self, times: usize) -> Result<(), String> {
        let mut group = Vec::new();
        while self.skip().is_some_and(|byte| byte != b')') {
            let first = self.number()?;
            let more = if self.takes(b'+') { self.number()? } else { 0 };
            group.push((first, more));
        }
        if !self.takes(b')') {
            return Err(self.wrong("a bracket is not closed"));
        }
        for time in 0..times {
            for &(first, more) in &group {
                self.put(first + time * more)?;
            }
        }
        Ok(())
    }
}

#[cfg(test)]
mod tests {
    use super::file;

    fn words(text: &str) -> Result<Vec<usize>, String> {
        let bytes = file(text.as_bytes())?;
        Ok(bytes.chunks(2).map(|word| usize::from(word[0]) + 256 * usize::from(word[1])).collect())
    }

    #[test]
    fn words_comments_and_groups() {
        assert_eq!(words("1 2 # 3\n65535"), Ok(vec![1, 2, 65_535]));
        assert_eq!(words("3*(1 4+1) 9"), Ok(vec![1, 4, 1, 5, 1, 6, 9]));
        assert_eq!(words("2*( # in between\n7 )"), Ok(vec![7, 7]));
        assert_eq!(words("0*(1)"), Ok(vec![]));
    }

    #[test]
    fn what_is_wrong_has_its_line() {
        for (text, wrong) in [
            ("1\nx", "line 2: a number is wanted"),
            ("65536", "line 1: a number is no 16-bit word"),
            ("3*1", "line 1: a bracket is wanted behind a *"),
            ("3*(1", "line 1: a bracket is not closed"),
            ("2*(65535+1)", "line 1: a sum is no 16-bit word"),
            ("99999999999999999999999", "line 1: a number is no 16-bit word"),
        ] {
            assert_eq!(words(text), Err(wrong.to_string()));
        }
    }

    #[test]
    fn far_too_many_words_are_cut() {
        assert_eq!(words("65535*(1 2 3 4 5 6 7 8)").map(|words| words.len()), Ok(32_768));
    }
}
