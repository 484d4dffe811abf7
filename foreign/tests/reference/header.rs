//! The functions of the header for C, in the table of calls: all of them, each with its causes in their
//! order.

use std::collections::BTreeMap;
use std::fs;
use std::path::Path;

use foreign::examples::reference;

const TABLE: &str = "| Function | Handed in |";

/// The numbers that stand in a text by themselves, but for what brackets hold.
fn numbers(text: &str) -> Vec<u32> {
    let outside = text.split('(').map(|part| part.rsplit(')').next());
    let between = |c: char| c.is_whitespace() || c == ',' || c == '.';
    let words = outside.flatten().flat_map(|part| part.split(between));
    words.filter_map(|word| word.parse().ok()).collect()
}

/// The functions that a header declares, each with the causes that end the comment before it; those that
/// are no more than inline have no place in the table.
fn declared(header: &str) -> BTreeMap<String, Vec<u32>> {
    let commented = header.split("/* ").filter_map(|it| it.split_once("*/"));
    let function = |(comment, code): (&str, &str)| {
        let (_, causes) = comment.rsplit_once("Cause")?;
        let front = code.split('(').next()?;
        let name = front
            .split_whitespace()
            .last()?
            .strip_prefix("cipangohu_")?;
        (!front.contains("inline")).then(|| (name.to_string(), numbers(causes)))
    };
    commented.filter_map(function).collect()
}

/// The table's functions and causes.
fn told(text: &str) -> BTreeMap<String, Vec<u32>> {
    let table = text.lines().skip_while(|line| !line.starts_with(TABLE));
    let rows = table.skip(2).take_while(|line| line.starts_with('|'));
    rows.map(|row| {
        let cells: Vec<&str> = row.trim_matches('|').split('|').map(str::trim).collect();
        let causes = cells.last().expect("causes");
        (cells[0].trim_matches('`').to_string(), numbers(causes))
    })
    .collect()
}

#[test]
fn every_function_is_told_with_its_causes() {
    let file = Path::new(env!("CARGO_MANIFEST_DIR")).join("../c/cipangohu.h");
    let header = fs::read_to_string(file).expect("the header");
    let (declared, told) = (declared(&header), told(&reference()));
    assert!(declared.contains_key("open") && declared.contains_key("rebuild"));
    for (name, causes) in declared {
        assert_eq!(told.get(&name), Some(&causes), "{name}");
    }
}
