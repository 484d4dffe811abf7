//! Measures everything, prints the ratios and the microseconds of this machine, and writes
//! docs/FIGURES.md with its plots.
//!
//!     figures DOCS [ROUNDS]    # DOCS is the folder; more rounds take longer and trouble less
//!     figures pass ROUNDS      # one pass, as the first runs several of

use std::error::Error;
use std::path::Path;
use std::{env, fs};

use cipangohu::MAX_HASHED;
use figures::contest::{share, Others, Tables, B, LENGTHS};
use figures::every_call;
use figures::growth::Sweeps;
use figures::library::{Isal, Openssl, Zfec};
use figures::session::GREATEST;
use figures::traffic::{self, traffic, Traffic};
use figures::{markdown, passes, program, report, stack, verdict};

const ROUNDS: u32 = 400;

struct Measured {
    contests: Tables,
    growth: Sweeps,
    traffic: Vec<(usize, Vec<Traffic>)>,
    stack: Vec<(&'static str, usize)>,
    program: Option<usize>,
}

/// Loads the libraries.
fn load() -> Others {
    let openssl = Openssl::native();
    let file = env::var("ZFEC").unwrap_or_default();
    Others {
        isal: Isal::load(),
        zfec: Zfec::load(&file, GREATEST.n - GREATEST.t, GREATEST.n),
        openssl_plain: openssl.and_then(|_| Openssl::plain()),
        openssl,
    }
}

/// Says which libraries are absent.
fn tell_absent(others: &Others) {
    for (absent, package) in [
        (others.isal.is_none(), "libisal2"),
        (others.zfec.is_none(), "python3-zfec"),
        (others.openssl.is_none(), "libssl3"),
    ] {
        if absent {
            println!("left out, since the Debian package {package} is absent\n");
        }
    }
}

fn measure(others: &Others, rounds: u32) -> Result<Measured, Box<dyn Error>> {
    let timed = passes::all(others, rounds)?;
    Ok(Measured {
        growth: timed.growth.relative(),
        contests: timed.contests,
        traffic: traffic::LENGTHS
            .iter()
            .map(|&length| (length, traffic(length)))
            .collect(),
        stack: stack::greatest(),
        program: program::least_stack(Path::new(&env::var("REHEARSAL").unwrap_or_default()))?,
    })
}

/// The blocks that SHA-256 makes of a string: 64 bytes each, with at least nine that fill it up.
fn blocks(length: usize) -> usize {
    (length + 9).div_ceil(64)
}

/// The sizes that the page speaks of, by their names there.
fn sizes() -> Vec<(&'static str, String)> {
    let [short, long] = LENGTHS;
    let counts = [
        ("{n}", GREATEST.n),
        ("{others}", GREATEST.n - 1),
        ("{t}", GREATEST.t),
        ("{b}", B),
        ("{shorter}", short),
        ("{length}", long),
        ("{shares}", share(long)),
        ("{shorter shares}", share(short)),
        ("{leaves}", 2 + share(long)),
        ("{shorter leaves}", 2 + share(short)),
        ("{blocks}", blocks(2 + share(long))),
        ("{shorter blocks}", blocks(2 + share(short))),
        ("{numbered blocks}", blocks(6 + share(long))),
        ("{shorter numbered blocks}", blocks(6 + share(short))),
        ("{hashed}", MAX_HASHED),
    ];
    let counts = counts.map(|(name, size)| (name, markdown::grouped(size)));
    let others = [
        ("{times}", markdown::figure(verdict::times_the_bytes())),
        ("{lengths}", markdown::listed(&every_call::LENGTHS)),
        ("{room}", format!("{} KiB", stack::ROOM / 1024)),
    ];
    counts.into_iter().chain(others).collect()
}

/// This machine's processor, as the system names it.
fn machine() -> String {
    let told = fs::read_to_string("/proc/cpuinfo").unwrap_or_default();
    let mut lines = told.lines().filter_map(|line| line.split_once(": "));
    let named = lines.find(|(field, _)| field.starts_with("model name"));
    named
        .map_or("an x86-64 without a name", |(_, name)| name)
        .into()
}

/// The most of what ISA-L's coder looks for that this processor has.
fn isal_uses() -> &'static str {
    if is_x86_feature_detected!("avx512bw") {
        return "AVX-512";
    }
    if is_x86_feature_detected!("avx2") {
        return "AVX2";
    }
    "at most AVX"
}

fn openssl_uses() -> &'static str {
    match is_x86_feature_detected!("sha") {
        true => "the SHA instructions",
        false => "no SHA instructions, at most AVX2",
    }
}

/// Writes a plot and gives the line that shows it.
fn picture(docs: &Path, file: &str, plot: &figures::plot::Plot) -> Result<String, Box<dyn Error>> {
    fs::write(docs.join("figures").join(file), plot.svg())?;
    Ok(format!("![{}](figures/{file})\n", plot.title))
}

fn growth_section(docs: &Path, measured: &Measured) -> Result<String, Box<dyn Error>> {
    let mut parts = Vec::new();
    for (sweep, points) in &measured.growth {
        let plot = report::growth_plot(*sweep, points);
        parts.push(picture(docs, sweep.file(), &plot)?);
        parts.push(report::growth_table(*sweep, points));
    }
    Ok(parts.join("\n"))
}

fn traffic_section(docs: &Path, measured: &Measured) -> Result<String, Box<dyn Error>> {
    let mut parts = Vec::new();
    for (length, traffic) in measured.traffic.iter().filter(|(length, _)| *length > 0) {
        let plot = report::traffic_plot(*length, traffic);
        parts.push(picture(docs, &report::traffic_file(*length), &plot)?);
    }
    parts.push(report::traffic_table(&measured.traffic));
    Ok(parts.join("\n"))
}

/// What the contests came to, by the names on the page.
fn contest_texts(contests: &Tables) -> [(&'static str, String); 8] {
    [
        ("{steps}", report::played(&contests.played)),
        ("{coder}", report::ratios(&contests.coder)),
        ("{hash}", report::ratios(&contests.hash)),
        ("{targets}", verdict::targets(contests)),
        ("{reasons}", verdict::reasons(contests)),
        ("{grown}", report::grown(&contests.played)),
        ("{verdict}", verdict::growth(&contests.played)),
        ("{numbered}", report::numbered(&contests.numbered)),
    ]
}

fn stack_texts(measured: &Measured) -> [(&'static str, String); 4] {
    let calls = measured.stack.iter();
    let most = calls.map(|(_, bytes)| *bytes).max().unwrap_or(0);
    let part = 100.0 * most as f64 / stack::ROOM as f64;
    [
        ("{stack}", report::stack_table(&measured.stack)),
        ("{most}", markdown::grouped(most)),
        ("{part}", format!("{part:.0} %")),
        ("{program}", report::program_stack(measured.program)),
    ]
}

/// Makes the folder of plots, or leaves none in it: those of other sizes have other names.
fn clear(plots: &Path) -> Result<(), Box<dyn Error>> {
    fs::create_dir_all(plots)?;
    for entry in fs::read_dir(plots)? {
        let file = entry?.path();
        if file.extension().is_some_and(|kind| kind == "svg") {
            fs::remove_file(file)?;
        }
    }
    Ok(())
}

fn write(docs: &Path, measured: &Measured) -> Result<(), Box<dyn Error>> {
    clear(&docs.join("figures"))?;
    let fewer = measured.traffic.iter();
    let fewer = fewer.map(|(length, of)| report::fewer_from(*length, of));
    let texts = [
        ("{machine}", machine()),
        ("{isal}", isal_uses().into()),
        ("{openssl}", openssl_uses().into()),
        ("{growth}", growth_section(docs, measured)?),
        ("{fewer}", fewer.collect::<Vec<_>>().join(" ")),
        ("{traffic}", traffic_section(docs, measured)?),
    ];
    let page = include_str!("figures.md").to_string();
    let page = (texts.iter())
        .chain(&contest_texts(&measured.contests))
        .chain(&stack_texts(measured))
        .chain(&sizes())
        .fold(page, |page, (name, text)| page.replace(name, text));
    fs::write(docs.join("FIGURES.md"), page)?;
    Ok(())
}

/// Prints the ratios, and the stacks.
fn print(measured: &Measured) {
    for (_, text) in contest_texts(&measured.contests) {
        println!("{text}");
    }
    println!("{}", report::stack_table(&measured.stack));
    println!("{}", report::program_stack(measured.program));
}

fn main() -> Result<(), Box<dyn Error>> {
    let mut words = env::args().skip(1);
    let first = words.next().ok_or("which folder is docs?")?;
    let rounds = words.next().map_or(Ok(ROUNDS), |rounds| rounds.parse())?;
    let others = load();
    if first == passes::WORD {
        passes::print(&others, rounds);
        return Ok(());
    }
    tell_absent(&others);
    let measured = measure(&others, rounds)?;
    print(&measured);
    write(Path::new(&first), &measured)
}
