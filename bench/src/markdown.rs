//! Tables in Markdown, and numbers as they are written there.

/// Digits in groups of three.
pub fn grouped(number: usize) -> String {
    let digits = number.to_string();
    let mut text = String::new();
    for (place, digit) in digits.chars().enumerate() {
        if place > 0 && (digits.len() - place).is_multiple_of(3) {
            text.push(',');
        }
        text.push(digit);
    }
    text
}

/// Numbers as a sentence lists them.
pub fn listed(numbers: &[usize]) -> String {
    let words: Vec<String> = numbers.iter().copied().map(grouped).collect();
    match &words[..] {
        [before @ .., beyond, last] if !before.is_empty() => {
            format!("{}, {beyond} and {last}", before.join(", "))
        }
        few => few.join(" and "),
    }
}

/// A ratio, or a time, with as many digits as say something.
pub fn figure(measured: f64) -> String {
    match measured {
        m if m < 10.0 => format!("{m:.2}"),
        m if m < 100.0 => format!("{m:.1}"),
        m => grouped(m.round() as usize),
    }
}

/// Columns are as wide as their widest cell, so that the table is legible as text; the first is
/// words, the others are numbers.
pub fn table(head: &[String], rows: &[Vec<String>]) -> String {
    let width = |column: usize| {
        let cells = std::iter::once(head).chain(rows.iter().map(Vec::as_slice));
        cells
            .map(|row| row[column].chars().count())
            .max()
            .unwrap_or(0)
    };
    let widths: Vec<usize> = (0..head.len()).map(width).collect();
    let line = |cells: &[String]| {
        let padded = cells
            .iter()
            .zip(&widths)
            .enumerate()
            .map(|(column, (cell, &width))| match column {
                0 => format!(" {cell:<width$} "),
                _ => format!(" {cell:>width$} "),
            });
        format!("|{}|\n", padded.collect::<Vec<_>>().join("|"))
    };
    let rule = widths
        .iter()
        .enumerate()
        .map(|(column, width)| match column {
            0 => "-".repeat(width + 2),
            _ => format!("{}:", "-".repeat(width + 1)),
        });
    let rule = format!("|{}|\n", rule.collect::<Vec<_>>().join("|"));
    let body: String = rows.iter().map(|row| line(row)).collect();
    format!("{}{rule}{body}", line(head))
}

#[cfg(test)]
mod tests {
    use super::*;

    #[test]
    fn numbers_are_written_in_groups() {
        assert_eq!(grouped(0), "0");
        assert_eq!(grouped(999), "999");
        assert_eq!(grouped(1_000), "1,000");
        assert_eq!(grouped(1_234_567), "1,234,567");
    }

    #[test]
    fn the_last_of_a_list_is_joined_by_a_word() {
        assert_eq!(listed(&[7]), "7");
        assert_eq!(listed(&[7, 1_000]), "7 and 1,000");
        assert_eq!(listed(&[0, 7, 1_000]), "0, 7 and 1,000");
    }

    #[test]
    fn figures_have_as_many_digits_as_say_something() {
        assert_eq!(figure(0.014), "0.01");
        assert_eq!(figure(28.86), "28.9");
        assert_eq!(figure(12_345.6), "12,346");
    }

    #[test]
    fn columns_are_as_wide_as_their_cells() {
        let head = ["L", "n"].map(str::to_string);
        let rows = vec![vec!["a".into(), "12".into()], vec!["bc".into(), "3".into()]];
        let want = "| L  |  n |\n|----|---:|\n| a  | 12 |\n| bc |  3 |\n";
        assert_eq!(table(&head, &rows), want);
    }
}
