//! The lines of a plan in words, cut into tokens, and the errors that name a line and what
//! was expected there.

use std::fmt;
use std::ops::RangeInclusive;

/// What is wrong, and in which line.
#[derive(Debug, PartialEq, Eq)]
pub struct Error {
    pub line: usize,
    pub text: String,
}

impl fmt::Display for Error {
    fn fmt(&self, f: &mut fmt::Formatter) -> fmt::Result {
        write!(f, "line {}: {}", self.line, self.text)
    }
}

#[derive(Debug, PartialEq, Eq)]
enum Token {
    Word(String),
    Text(Vec<u8>),
    Mark(char),
}

impl fmt::Display for Token {
    fn fmt(&self, f: &mut fmt::Formatter) -> fmt::Result {
        match self {
            Token::Word(word) => write!(f, "'{word}'"),
            Token::Text(_) => write!(f, "a text in quotes"),
            Token::Mark(mark) => write!(f, "'{mark}'"),
        }
    }
}

/// A line that says something, with its number and the tokens not read yet. A line that goes
/// on has the number of its first part.
#[derive(Debug)]
pub struct Line {
    pub number: usize,
    tokens: std::collections::VecDeque<Token>,
}

/// The lines of a text, without comments and blank lines.
pub fn lines(text: &str) -> Result<Vec<Line>, Error> {
    let mut lines = Vec::new();
    let mut open = None;
    for (number, written) in (1..).zip(text.lines()) {
        let mut line = open.take().unwrap_or(Line {
            number,
            tokens: Default::default(),
        });
        line.tokens.extend(tokens(number, written)?);
        if line.tokens.back() == Some(&Token::Mark('\\')) {
            line.tokens.pop_back();
            open = Some(line);
        } else if !line.tokens.is_empty() {
            lines.push(line);
        }
    }
    lines.extend(open);
    Ok(lines)
}

fn tokens(line: usize, written: &str) -> Result<Vec<Token>, Error> {
    let mut tokens = Vec::new();
    let mut rest = written.trim_start();
    while let Some(first) = rest.chars().next().filter(|first| *first != '#') {
        let (token, behind) = match first {
            '"' => quoted(&rest[1..]).map_err(|text| Error { line, text })?,
            ':' | ',' | '\\' => (Token::Mark(first), &rest[1..]),
            _ => word(rest),
        };
        tokens.push(token);
        rest = behind.trim_start();
    }
    Ok(tokens)
}

fn word(rest: &str) -> (Token, &str) {
    let ends = |c: char| c.is_whitespace() || [':', ',', '\\', '#', '"'].contains(&c);
    let (word, behind) = rest.split_at(rest.find(ends).unwrap_or(rest.len()));
    (Token::Word(word.to_string()), behind)
}

/// The text up to the closing quote, and what is behind that; the error says what was expected.
fn quoted(rest: &str) -> Result<(Token, &str), String> {
    let unclosed = r#"expected a closing " in this line; in a text, \" stands for " and \\ for \"#;
    let mut text = String::new();
    let mut chars = rest.chars();
    loop {
        match chars.next().ok_or(unclosed)? {
            '"' => return Ok((Token::Text(text.into_bytes()), chars.as_str())),
            '\\' => text.push(escaped(chars.next().ok_or(unclosed)?)?),
            other => text.push(other),
        }
    }
}

/// What a character behind a backslash stands for.
fn escaped(found: char) -> Result<char, String> {
    match found {
        '"' | '\\' => Ok(found),
        _ => Err(format!(
            r#"expected '\"' for a quote or '\\' for a backslash, found '\{found}'"#
        )),
    }
}

impl Line {
    pub fn error(&self, text: impl Into<String>) -> Error {
        Error {
            line: self.number,
            text: text.into(),
        }
    }

    /// The error that something else was found here.
    pub fn expected(&self, what: &str) -> Error {
        match self.tokens.front() {
            Some(token) => self.error(format!("expected {what}, found {token}")),
            None => self.error(format!("expected {what}, found the end of the line")),
        }
    }

    /// The next token, if it is a word.
    pub fn word(&self) -> Option<&str> {
        match self.tokens.front() {
            Some(Token::Word(word)) => Some(word),
            _ => None,
        }
    }

    /// The word, which is read, if it can be made into something.
    pub fn take<T>(&mut self, made: impl FnOnce(&str) -> Option<T>) -> Option<T> {
        let taken = made(self.word()?)?;
        self.tokens.pop_front();
        Some(taken)
    }

    pub fn accept(&mut self, word: &str) -> bool {
        self.take(|found| (found == word).then_some(())).is_some()
    }

    pub fn expect(&mut self, word: &str) -> Result<(), Error> {
        match self.accept(word) {
            true => Ok(()),
            false => Err(self.expected(&format!("'{word}'"))),
        }
    }

    pub fn accept_mark(&mut self, mark: char) -> bool {
        let found = self.tokens.front() == Some(&Token::Mark(mark));
        if found {
            self.tokens.pop_front();
        }
        found
    }

    pub fn accept_text(&mut self) -> Option<Vec<u8>> {
        match self.tokens.pop_front()? {
            Token::Text(text) => Some(text),
            other => {
                self.tokens.push_front(other);
                None
            }
        }
    }

    /// A decimal number in a range.
    pub fn number(&mut self, what: &str, range: RangeInclusive<usize>) -> Result<usize, Error> {
        let number = self.take(|word| {
            let digits = word.bytes().all(|byte| byte.is_ascii_digit());
            let number = word.parse().ok().filter(|_| digits)?;
            range.contains(&number).then_some(number)
        });
        let bounds = format!("{what} from {} to {}", range.start(), range.end());
        number.ok_or_else(|| self.expected(&bounds))
    }

    /// The hexadecimal digits up to a mark or the end of the line, at least one byte.
    pub fn hex(&mut self) -> Result<Vec<u8>, Error> {
        let mut bytes = Vec::new();
        while self.word().is_some() || bytes.is_empty() {
            let pairs = self.take(pairs);
            bytes.extend(pairs.ok_or_else(|| self.expected("pairs of hexadecimal digits"))?);
        }
        Ok(bytes)
    }

    /// Nothing more stands in the line.
    pub fn end(&self) -> Result<(), Error> {
        match self.tokens.is_empty() {
            true => Ok(()),
            false => Err(self.expected("the end of the line")),
        }
    }
}

/// The bytes of a word of hexadecimal digits.
pub fn pairs(word: &str) -> Option<Vec<u8>> {
    let digits: Option<Vec<u32>> = word.chars().map(|c| c.to_digit(16)).collect();
    let digits = digits.filter(|it| it.len().is_multiple_of(2))?;
    Some(
        digits
            .chunks(2)
            .map(|two| (16 * two[0] + two[1]) as u8)
            .collect(),
    )
}

#[cfg(test)]
mod tests {
    use super::*;

    #[test]
    fn comments_blanks_and_going_on() {
        let text = "# none\n\n a b # c\nhex 41 \\\n  42 \\ # on\r\n43\n\"#\\\"\\\\\" # \\\n";
        let found = lines(text).expect("good lines");
        let numbers: Vec<usize> = found.iter().map(|line| line.number).collect();
        assert_eq!(numbers, [3, 4, 7]);
        let [mut words, mut hex, mut quoted] = <[Line; 3]>::try_from(found).expect("three");
        assert!(words.accept("a") && words.accept("b") && words.end().is_ok());
        assert!(hex.accept("hex"));
        assert_eq!(hex.hex(), Ok(b"ABC".to_vec()));
        assert_eq!(quoted.accept_text(), Some(b"#\"\\".to_vec()));
    }

    #[test]
    fn pairs_of_digits() {
        assert_eq!(pairs("0fF0"), Some(vec![0x0F, 0xF0]));
        assert_eq!(pairs("0f0"), None);
        assert_eq!(pairs("0x"), None);
    }
}
