//! The text of docs/FIGURES.md and its plots, from what was measured.

use crate::contest::{Grown, Times, FOREIGN, LENGTHS};
use crate::growth::{Point, Sweep, STEPS};
use crate::markdown::{figure, grouped, table};
use crate::numbered::Numbered;
use crate::plot::{Line, Plot};
use crate::program;
use crate::session::GREATEST;
use crate::traffic::Traffic;

/// What the column of times is called.
const HERE: &str = "µs, this machine";

/// A table of ratios whose columns are the rivals in the order in which they are first named; last
/// the proved code's own time.
pub fn ratios(rows: &[Times]) -> String {
    let mut columns: Vec<&str> = Vec::new();
    for (name, _) in rows.iter().flat_map(Times::ratios) {
        if !columns.contains(&name) {
            columns.push(name);
        }
    }
    let cell = |row: &Times, column: &str| {
        let found = row.ratios().find(|(name, _)| *name == column);
        found.map_or("–".into(), |(_, value)| figure(value))
    };
    let line = |row: &Times| {
        let cells = columns.iter().map(|column| cell(row, column));
        let named = std::iter::once(row.name()).chain(cells);
        named.chain([figure(row.microseconds())]).collect()
    };
    let head = std::iter::once("proved to")
        .chain(columns.iter().copied())
        .chain([HERE]);
    let rows: Vec<Vec<String>> = rows.iter().map(line).collect();
    table(&head.map(str::to_string).collect::<Vec<_>>(), &rows)
}

/// The ratios of what was measured at both lengths, then the proved code's own times.
pub fn played(rows: &[Grown]) -> String {
    let lengths = LENGTHS.map(grouped);
    let at_each = |name: &str| lengths.clone().map(|length| format!("{name}, L {length}"));
    let head = ["proved to".to_string()].into_iter();
    let head = head.chain(at_each(FOREIGN)).chain(at_each(HERE));
    let line = |row: &Grown| {
        let ratios = row.at.iter().flat_map(Times::ratios);
        let times = row.at.iter().map(Times::microseconds);
        let cells = ratios.map(|(_, ratio)| ratio).chain(times);
        named(row.work, cells)
    };
    let rows: Vec<_> = rows.iter().map(line).collect();
    table(&head.collect::<Vec<_>>(), &rows)
}

/// How many times as long each work takes with the longer message.
pub fn grown(rows: &[Grown]) -> String {
    let [short, long] = LENGTHS.map(grouped);
    let head = [
        format!("L {long} to L {short}"),
        "proved".into(),
        FOREIGN.into(),
    ];
    let line = |row: &Grown| named(row.work, row.factors());
    table(&head, &rows.iter().map(line).collect::<Vec<_>>())
}

/// What each work takes under a sitting number, where under 0 it takes 1.
pub fn numbered(rows: &[Numbered]) -> String {
    let lengths = LENGTHS.map(|length| format!("L {}", grouped(length)));
    let head = std::iter::once("under a number to under 0".to_string()).chain(lengths);
    let line = |row: &Numbered| named(row.work, row.ratios());
    let rows: Vec<_> = rows.iter().map(line).collect();
    table(&head.collect::<Vec<_>>(), &rows)
}

/// A row of figures.
fn named(name: &str, cells: impl IntoIterator<Item = f64>) -> Vec<String> {
    let cells = cells.into_iter().map(figure);
    std::iter::once(name.to_string()).chain(cells).collect()
}

impl Sweep {
    pub fn file(self) -> &'static str {
        match self {
            Sweep::Length => "time-by-length.svg",
            Sweep::Parties => "time-by-parties.svg",
            Sweep::Faults => "time-by-faults.svg",
        }
    }

    fn name(self) -> &'static str {
        match self {
            Sweep::Length => "L, bytes of the book",
            Sweep::Parties => "n, boxes",
            Sweep::Faults => "t, fault limit",
        }
    }

    pub fn title(self) -> String {
        let (n, t, length) = (GREATEST.n, GREATEST.t, grouped(GREATEST.length));
        match self {
            Sweep::Length => format!("Time by the length of the book (n {n}, t {t})"),
            Sweep::Parties => format!("Time by the number of boxes (L {length}, the greatest t)"),
            Sweep::Faults => format!("Time by the fault limit (n {n}, L {length})"),
        }
    }
}

pub fn growth_table(sweep: Sweep, points: &[Point]) -> String {
    let steps = STEPS.iter().map(|step| step.name());
    let head: Vec<String> = std::iter::once(sweep.name())
        .chain(steps)
        .map(str::to_string)
        .collect();
    let row = |point: &Point| named(&grouped(point.x), point.times);
    table(&head, &points.iter().map(row).collect::<Vec<_>>())
}

pub fn growth_plot(sweep: Sweep, points: &[Point]) -> Plot {
    let line = |place: usize| Line {
        name: STEPS[place].name().into(),
        points: points
            .iter()
            .map(|point| (point.x as f64, point.times[place]))
            .collect(),
    };
    Plot {
        title: sweep.title(),
        x_name: sweep.name().into(),
        y_name: format!(
            "opening at L {}, n {}, t {} = 1",
            grouped(GREATEST.length),
            GREATEST.n,
            GREATEST.t
        ),
        x_ticks: points.iter().map(|point| point.x as f64).collect(),
        lines: (0..STEPS.len()).map(line).collect(),
    }
}

pub fn traffic_file(length: usize) -> String {
    format!("bytes-{length}.svg")
}

/// One row for each n, and three columns for each length.
pub fn traffic_table(by_length: &[(usize, Vec<Traffic>)]) -> String {
    let mut head = vec!["n, t".to_string()];
    for (length, _) in by_length {
        let length = grouped(*length);
        head.extend(["sent", "bound", "all to all"].map(|name| format!("L {length}: {name}")));
    }
    let row = |place: usize| {
        let first = &by_length[0].1[place];
        let counts = by_length.iter().flat_map(|(_, all)| {
            [all[place].sent, all[place].bound, all[place].plain].map(grouped)
        });
        std::iter::once(format!("{}, {}", first.n, first.t))
            .chain(counts)
            .collect()
    };
    let rows: Vec<Vec<String>> = (0..by_length[0].1.len()).map(row).collect();
    table(&head, &rows)
}

pub fn traffic_plot(length: usize, traffic: &[Traffic]) -> Plot {
    let line = |name: &str, count: fn(&Traffic) -> usize| Line {
        name: name.into(),
        points: traffic
            .iter()
            .map(|of| (of.n as f64, count(of) as f64))
            .collect(),
    };
    Plot {
        title: format!(
            "Bytes that a sitting sends (L {}, the greatest t)",
            grouped(length)
        ),
        x_name: "n, boxes".into(),
        y_name: "bytes".into(),
        x_ticks: traffic.iter().map(|of| of.n as f64).collect(),
        lines: vec![
            line("sent", |of| of.sent),
            line("bound", |of| of.bound),
            line("every book to all", |of| of.plain),
        ],
    }
}

/// From which n on a sitting sends fewer bytes than all books to all.
pub fn fewer_from(length: usize, traffic: &[Traffic]) -> String {
    let length = grouped(length);
    let more = traffic
        .iter()
        .rposition(|of| of.sent >= of.plain)
        .map_or(0, |place| place + 1);
    match traffic.get(more) {
        Some(of) => format!("At L {length} it sends fewer from n {} on.", of.n),
        None => format!("At L {length} it sends more for every n."),
    }
}

pub fn stack_table(calls: &[(&'static str, usize)]) -> String {
    let head = ["call", "bytes of stack"].map(str::to_string);
    let row = |(name, bytes): &(&str, usize)| vec![name.to_string(), grouped(*bytes)];
    table(&head, &calls.iter().map(row).collect::<Vec<_>>())
}

/// What the program takes.
pub fn program_stack(least: Option<usize>) -> String {
    let room = program::ROOM / 1024;
    let (n, t) = (GREATEST.n, GREATEST.t);
    let measured = match least.map(grouped) {
        Some(least) => format!(
            "prints a plan of {n} boxes with the longest books, of which {t} rebuild, under a limit of \
             {least} KiB of stack"
        ),
        None => "was absent, and is left out".into(),
    };
    format!("The program `rehearsal` {measured}; `scripts/check-plans` runs it on all plans with {room} MiB.")
}
