//! The examples in docs/REFERENCE.md, for the tests that run them. One is a fenced block with the
//! word `example` and its kind behind the fence. Each line has a name, a colon and a value; a line
//! that begins with a space goes on with the value. The limits stand in a table, by name.

use std::fs;
use std::path::Path;

const FENCE: &str = "```";

/// The columns of the table of limits.
const LIMITS: &str = "| Name | Number |";

#[derive(Clone, Debug, PartialEq, Eq)]
pub struct Field {
    pub name: String,
    pub value: String,
}

/// An example, and the number of the line where it begins.
#[derive(Clone, Debug, PartialEq, Eq)]
pub struct Example {
    pub kind: String,
    pub line: usize,
    pub fields: Vec<Field>,
}

/// The text of docs/REFERENCE.md.
pub fn reference() -> String {
    let folder = Path::new(env!("CARGO_MANIFEST_DIR"));
    fs::read_to_string(folder.join("../docs/REFERENCE.md")).expect("docs/REFERENCE.md")
}

/// All examples of a text. A block that is no example is not taken, so that none goes unrun.
pub fn examples(text: &str) -> Result<Vec<Example>, String> {
    let mut found: Vec<Example> = Vec::new();
    let mut within = false;
    for (line, text) in (1..).zip(text.lines()) {
        if let Some(words) = text.trim_start().strip_prefix(FENCE) {
            within = !within;
            match (within, words.strip_prefix("example ")) {
                (true, Some(kind)) => found.push(Example {
                    kind: kind.to_string(),
                    line,
                    fields: Vec::new(),
                }),
                (false, None) if words.is_empty() => (),
                _ => {
                    return Err(format!(
                        "line {line}: a fence that begins or ends no example"
                    ))
                }
            }
        } else if let (true, Some(example)) = (within, found.last_mut()) {
            example.read(text).ok_or(format!("line {line}: {text}"))?;
        } else if text.starts_with("    ") {
            return Err(format!(
                "line {line}: indented as a block that is no example"
            ));
        }
    }
    match within {
        true => Err("the last example has no end".to_string()),
        false => Ok(found),
    }
}

/// The table of limits: each one's name and number.
pub fn limits(text: &str) -> Vec<(String, usize)> {
    let table = text.lines().skip_while(|line| !line.starts_with(LIMITS));
    let rows = table.skip(2).take_while(|line| line.starts_with('|'));
    rows.map(|row| {
        let cells: Vec<&str> = row.split('|').map(str::trim).collect();
        let number = cells[2].replace(',', "");
        (
            cells[1].trim_matches('`').to_string(),
            number.parse().expect("a number"),
        )
    })
    .collect()
}

/// A number in digits, or a limit by its name, with a number that is added or taken away, as in
/// `PARTIES + 1`.
pub fn number(text: &str) -> Option<usize> {
    let of = |name| limits(&reference()).into_iter().find(|it| it.0 == name);
    if let Some((name, more)) = text.split_once(" + ") {
        return of(name)?.1.checked_add(more.parse().ok()?);
    }
    if let Some((name, fewer)) = text.split_once(" - ") {
        return of(name)?.1.checked_sub(fewer.parse().ok()?);
    }
    text.parse().ok().or_else(|| Some(of(text)?.1))
}

/// The bytes of hexadecimal digits, in pairs with any space between them; none for the word `none`.
/// A limit in brackets is that number in two bytes, and as many zeros as one says may stand behind
/// all else, as in `07 (SHARE + 1) SHARE + 1 zeros`.
pub fn bytes(digits: &str) -> Option<Vec<u8>> {
    if let Some(front) = digits.strip_suffix(" zeros") {
        let named = front.rfind(')').map_or(0, |end| end + 1);
        let name = front[named..].find(|c: char| c.is_ascii_uppercase())?;
        let (front, count) = front.split_at(named + name);
        let mut whole = match front {
            "" => Vec::new(),
            _ => bytes(front)?,
        };
        whole.resize(whole.len() + number(count)?, 0);
        return Some(whole);
    }
    if let Some((front, rest)) = digits.split_once('(') {
        let (named, rest) = rest.split_once(')')?;
        let length = u16::try_from(number(named)?).ok()?.to_be_bytes();
        let [front, rest] = [front, rest].map(|part| match part.trim() {
            "" => Some(Vec::new()),
            part => bytes(part),
        });
        return Some([&front?[..], &length, &rest?].concat());
    }
    let digits = spaceless(digits);
    if digits == "none" {
        return Some(Vec::new());
    }
    let lower = |digit: &u8| digit.is_ascii_digit() || (b'a'..=b'f').contains(digit);
    if digits.is_empty() || digits.len() % 2 == 1 || !digits.as_bytes().iter().all(lower) {
        return None;
    }
    let pair = |start| u8::from_str_radix(&digits[start..start + 2], 16).ok();
    (0..digits.len()).step_by(2).map(pair).collect()
}

/// The text without any space.
pub fn spaceless(text: &str) -> String {
    text.split_whitespace().collect()
}

/// A state with some of its bytes replaced, as lines with the word `byte`, an offset, which stands in
/// brackets if it is told by a limit, and the bytes that stand from there on tell; or with another
/// length, as in `STATE + 1 bytes`.
pub fn written_over(state: &[u8], lines: &str) -> Option<Vec<u8>> {
    let mut state = state.to_vec();
    for line in lines.lines() {
        if let Some(length) = line.strip_suffix(" bytes") {
            state.resize(number(length)?, 0);
            continue;
        }
        let line = line.strip_prefix("byte ")?;
        let (offset, digits) = match line.strip_prefix('(') {
            Some(named) => named.split_once(") ")?,
            None => line.split_once(' ')?,
        };
        let (offset, run) = (number(offset)?, bytes(digits)?);
        let place = state.get_mut(offset..offset + run.len())?;
        place.copy_from_slice(&run);
    }
    Some(state)
}

/// The plan of an example, whose parts stand one after the other, and what it prints, line by line.
pub fn planned(example: &Example) -> Option<(Vec<u8>, String)> {
    let (output, parts) = example.fields.split_last()?;
    if output.name != "prints" {
        return None;
    }
    let parts: Option<Vec<Vec<u8>>> = parts.iter().map(|part| bytes(&part.value)).collect();
    Some((parts?.concat(), output.value.clone() + "\n"))
}

impl Field {
    /// The argument of a name among those that a call's value has, with commas between them.
    pub fn argument(&self, name: &str) -> Option<&str> {
        let mut arguments = self.value.split(',').map(str::trim);
        arguments.find_map(|it| {
            let (first, value) = it.split_once(char::is_whitespace)?;
            (first == name).then(|| value.trim())
        })
    }

    /// An argument that is a number.
    pub fn number(&self, name: &str) -> Option<usize> {
        number(self.argument(name)?)
    }

    /// The sitting number among the arguments, 0 where none is told.
    pub fn sitting(&self) -> u32 {
        let number = self.number("sitting").unwrap_or(0);
        number.try_into().expect("a number in four bytes")
    }

    /// An argument that is bytes.
    pub fn bytes(&self, name: &str) -> Option<Vec<u8>> {
        bytes(self.argument(name)?)
    }
}

impl Example {
    /// Takes a line, if it is one of an example.
    fn read(&mut self, line: &str) -> Option<()> {
        if line.starts_with(' ') {
            let last = self.fields.last_mut()?;
            last.value = last.value.clone() + "\n" + line.trim_start();
            return Some(());
        }
        let (name, value) = line.split_once(':')?;
        self.fields.push(Field {
            name: name.to_string(),
            value: value.trim_start().to_string(),
        });
        Some(())
    }

    /// The value of a name that stands once.
    pub fn value(&self, name: &str) -> &str {
        let mut named = self.fields.iter().filter(|field| field.name == name);
        match (named.next(), named.next()) {
            (Some(field), None) => &field.value,
            _ => panic!("line {}: {name} does not stand once", self.line),
        }
    }

    pub fn number(&self, name: &str) -> usize {
        let number = self.value(name).parse();
        number.unwrap_or_else(|_| panic!("line {}: {name} is no number", self.line))
    }

    /// The sitting number that it begins with, if it tells one.
    pub fn sitting(&self) -> Option<u32> {
        let first = self.fields.first().filter(|it| it.name == "sitting")?;
        let number = first.value.parse();
        Some(number.unwrap_or_else(|_| panic!("line {}: no sitting number", self.line)))
    }

    pub fn bytes(&self, name: &str) -> Vec<u8> {
        let found = bytes(self.value(name));
        found.unwrap_or_else(|| panic!("line {}: {name} are no bytes", self.line))
    }
}

#[cfg(test)]
mod tests {
    use super::*;

    const TEXT: &str = "Text\n\n```example packet\nn: 3\npacket: 07 03\n        c3\n```\nmore\n";

    #[test]
    fn a_block_is_taken_apart() {
        let found = examples(TEXT).expect("an example");
        assert_eq!(found.len(), 1);
        assert_eq!((found[0].kind.as_str(), found[0].line), ("packet", 3));
        assert_eq!(found[0].number("n"), 3);
        assert_eq!(found[0].bytes("packet"), [7, 3, 0xC3]);
        assert_eq!(found[0].sitting(), None);
        let numbered = TEXT.replace("n: 3", "sitting: 7\nn: 3");
        assert_eq!(examples(&numbered).expect("one")[0].sitting(), Some(7));
    }

    #[test]
    fn other_blocks_are_refused() {
        for (old, new) in [
            ("```example packet", "```exampel packet"),
            ("```example packet", "```"),
            ("c3\n```", "c3"),
            ("more", "    more"),
            ("n: 3", "n 3"),
            ("n: 3", " n: 3"),
        ] {
            assert!(examples(&TEXT.replace(old, new)).is_err(), "{new}");
        }
    }

    #[test]
    fn digits() {
        assert_eq!(bytes("0a\n ff"), Some(vec![10, 255]));
        assert_eq!(bytes("none"), Some(vec![]));
        for none in ["", "0", "0g", "0A", "+1", "2 zeros", "0 ROOT zeros"] {
            assert_eq!(bytes(none), None);
        }
        let zeros = bytes("0a ROOT - 30 zeros");
        assert_eq!(zeros, Some(vec![10, 0, 0]));
        assert_eq!(bytes("ROOT zeros"), Some(vec![0; 32]));
        assert_eq!(bytes("07 (ROOT + 1) 0a"), Some(vec![7, 0, 33, 10]));
        let counted = bytes("(ROOT) ROOT - 31 zeros");
        assert_eq!(counted, Some(vec![0, 32, 0]));
        for none in ["(ROOT", "(ROOT + )", "(INBOX)", "0 (ROOT)", "(none)"] {
            assert_eq!(bytes(none), None, "{none}");
        }
    }

    #[test]
    fn numbers_and_limits() {
        assert_eq!(number("7"), Some(7));
        assert_eq!((number("ROOT"), number("ROOT + 1")), (Some(32), Some(33)));
        assert_eq!(number("ROOT - 1"), Some(31));
        for none in ["", "-1", "ROOTS", "ROOT + ", "ROOT - 33"] {
            assert_eq!(number(none), None);
        }
    }

    #[test]
    fn arguments_and_states() {
        let call = Field {
            name: "open".to_string(),
            value: "n 3, own 2,\nbook 41\n42".to_string(),
        };
        assert_eq!((call.number("n"), call.number("own")), (Some(3), Some(2)));
        assert_eq!(call.bytes("book"), Some(vec![0x41, 0x42]));
        assert_eq!((call.argument("t"), call.sitting()), (None, 0));
        let numbered = Field {
            value: "sitting 4294967295, n 3".to_string(),
            ..call
        };
        assert_eq!(numbered.sitting(), u32::MAX);
        let runs = "byte 0 01 03\nbyte 4   ff";
        assert_eq!(written_over(&[9; 5], runs), Some(vec![1, 3, 9, 9, 0xFF]));
        assert_eq!(written_over(&[9; 4], runs), None);
        let placed = written_over(&[9; 4], "byte (ROOT - 30) (ROOT)");
        assert_eq!(placed, Some(vec![9, 9, 0, 32]));
        let longer = written_over(&[9; 32], "ROOT + 1 bytes");
        assert_eq!(longer, Some([&[9; 32][..], &[0]].concat()));
    }

    #[test]
    fn a_table_of_limits() {
        let text =
            "| Name | Number | Of |\n|---|---|---|\n| `PLAN` | 60,000 | a |\n\n| `X` | 1 | b |\n";
        assert_eq!(limits(text), [("PLAN".to_string(), 60_000)]);
    }
}
