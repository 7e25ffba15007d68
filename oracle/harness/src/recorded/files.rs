//! The recorded files: which there are, and whether they are what this program makes now.
use super::{aborts, bits, ranges, record, splits, statuses, tlbi, Shown};
use crate::generate::{trace, trace_of_cores, Style};
use crate::op::Line;
use std::fmt::Write;
use std::path::Path;
use std::{fs, io};

/// Generated traces: name, seed, operations, style, and whether of four cores. The seeds were chosen for what they add to the table.
const GENERATED: [(&str, u64, usize, Style, bool); 11] = [
    ("list-1", 34, 200, Style::Strict, false),
    ("list-2", 1441, 200, Style::Strict, false),
    ("list-3", 772, 200, Style::Strict, false),
    ("list-4", 690, 200, Style::Strict, false),
    ("list-5", 1485, 200, Style::Strict, false),
    ("list-6", 957, 200, Style::Strict, false),
    ("list-7", 583, 200, Style::Strict, false),
    ("mixed-1", 5, 250, Style::Full, false),
    ("cores-1", 111, 300, Style::Strict, true),
    ("cores-2", 137, 300, Style::Strict, true),
    ("cores-3", 96, 300, Style::Strict, true),
];

/// Where the table stands in the README.
const MARKS: (&str, &str) = ("<!-- coverage begins -->\n", "<!-- coverage ends -->\n");

/// A file's name and what it has to hold.
pub type File = (String, Vec<u8>);

/// A file's folder: records stand apart from traces and the README.
pub fn folder_of<'a>(file: &File, traces: &'a Path, records: &'a Path) -> &'a Path {
    if file.0.ends_with(".rec") {
        records
    } else {
        traces
    }
}

fn text(head: &str, lines: &[Line]) -> String {
    let mut s = format!("# {head}\n");
    for l in lines {
        let _ = writeln!(s, "{l}");
    }
    s
}

/// The traces that this program writes itself.
fn made() -> Vec<(String, String)> {
    let mut all: Vec<(String, String)> = GENERATED
        .iter()
        .map(|(name, seed, n, style, cores)| {
            let strict = if *style == Style::Strict { " --strict" } else { "" };
            let (of_cores, lines) = match cores {
                true => (" --cores", trace_of_cores(*seed, *n, *style)),
                false => ("", trace(*seed, *n, *style)),
            };
            (
                format!("{name}.trace"),
                text(&format!("generate {seed} {n}{of_cores}{strict}"), &lines),
            )
        })
        .collect();
    for (name, head, lines) in [
        (
            "aborts.trace",
            "every abort entry, from every level, under every routing",
            aborts::lines(),
        ),
        (
            "bits.trace",
            "flipped bits of walks that end at any level by a descriptor of each kind, both granules, every range",
            bits::lines(),
        ),
        (
            "ranges.trace",
            "censuses of 65,536 pages: by pages, by blocks, not mapped",
            ranges::lines(),
        ),
        (
            "splits.trace",
            "loads and stores across the ends of pages and across 2^64",
            splits::lines(),
        ),
        (
            "statuses.trace",
            "every status of a walk, by every operation that translates",
            statuses::lines(),
        ),
        ("tlbi.trace", "every form of TLBI", tlbi::lines()),
    ] {
        all.push((name.into(), text(head, &lines)));
    }
    all
}

/// The names of the traces in the folder that are written by hand.
fn by_hand(dir: &Path, made: &[(String, String)]) -> io::Result<Vec<String>> {
    let mut names = Vec::new();
    for entry in fs::read_dir(dir)? {
        let name = entry?.file_name().to_string_lossy().into_owned();
        if name.ends_with(".trace") && !made.iter().any(|(n, _)| *n == name) {
            names.push(name);
        }
    }
    names.sort();
    Ok(names)
}

fn table(shown: &Shown) -> String {
    let mut s = format!("{}| Operation | Number | Answers |\n|---|---|---|\n", MARKS.0);
    for (kind, n, answers) in shown.tally.rows() {
        let _ = writeln!(s, "| {kind} | {n} | {answers} |");
    }
    for (kind, by, n, answers) in shown.tally.rows_outside() {
        let _ = writeln!(s, "| {kind}, {by} | {n} | {answers} |");
    }
    let _ = writeln!(
        s,
        "\nOf these, {}.\n\n| Subject | Cases |\n|---|---|",
        shown.tally.sources()
    );
    for (subject, cases) in &shown.names {
        let cases: Vec<String> = cases.iter().map(|(case, n)| format!("{case}: {n}")).collect();
        let _ = writeln!(s, "| {subject} | {} |", cases.join(", "));
    }
    s + MARKS.1
}

/// The README with the table put in its place.
fn readme(dir: &Path, shown: &Shown) -> io::Result<File> {
    let old = fs::read_to_string(dir.join("README.md"))?;
    let ends = old
        .split_once(MARKS.0)
        .and_then(|(a, rest)| Some((a, rest.split_once(MARKS.1)?.1)));
    let (before, after) = ends.ok_or_else(|| io::Error::other("README.md has no place for the table"))?;
    Ok((
        "README.md".into(),
        format!("{before}{}{after}", table(shown)).into_bytes(),
    ))
}

/// Every file that the folder has to hold, from the traces by hand in it and the seeds here.
pub fn all(dir: &Path) -> io::Result<(Vec<File>, Shown)> {
    let mut traces = made();
    for name in by_hand(dir, &traces)? {
        let text = fs::read_to_string(dir.join(&name))?;
        traces.push((name, text));
    }
    let mut shown = Shown::default();
    let mut files = Vec::new();
    for (name, text) in traces {
        let lines = Line::parse_all(&text).map_err(|e| io::Error::other(format!("{name}: {e}")))?;
        let lines: Vec<Line> = lines.into_iter().map(|(_, l)| l).collect();
        files.push((name.replace(".trace", ".rec"), record(&lines, &mut shown)));
        files.push((name, text.into_bytes()));
    }
    files.push(readme(dir, &shown)?);
    files.sort();
    Ok((files, shown))
}
