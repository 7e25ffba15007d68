//! What the programs share: arguments, usage, and the choice of a core. Exit status 0 is success, 1 a failure of
//! what was tested, 2 a wrong call.
use crate::cluster::boundary::CFour;
use crate::cluster::plain::PlainFour;
use crate::cluster::{Cluster, Four};
use crate::domain::Reference;
use crate::ffi::CCore;
use crate::generate::{trace, trace_of_cores, Style};
use crate::model::{DocCore, DocFour, Mistake, MISTAKES};
use crate::op::Line;
use crate::plain::PlainCore;
use crate::rust::RustCore;
use crate::Core;
use std::ops::Range;

pub struct Args {
    usage: &'static str,
    words: Vec<String>,
    flags: Vec<String>,
    values: Vec<(String, String)>,
}

impl Args {
    /// The program's arguments: `flags` are options without a value, `options` those with one.
    pub fn new(usage: &'static str, flags: &[&str], options: &[&str]) -> Args {
        let mut args = Args {
            usage,
            words: Vec::new(),
            flags: Vec::new(),
            values: Vec::new(),
        };
        let mut given = std::env::args().skip(1);
        while let Some(a) = given.next() {
            if flags.contains(&a.as_str()) {
                args.flags.push(a);
            } else if options.contains(&a.as_str()) {
                let Some(v) = given.next() else {
                    args.fail(&format!("{a} wants a value"))
                };
                args.values.push((a, v));
            } else if a.starts_with('-') {
                args.fail(&format!("no such option: {a}"));
            } else {
                args.words.push(a);
            }
        }
        args
    }

    /// Say why, show the usage, end with status 2.
    pub fn fail(&self, why: &str) -> ! {
        eprintln!("{why}\nusage: {}", self.usage);
        std::process::exit(2)
    }

    pub fn flag(&self, name: &str) -> bool {
        self.flags.iter().any(|f| f == name)
    }

    pub fn value(&self, name: &str) -> Option<&str> {
        self.values
            .iter()
            .find(|(n, _)| n == name)
            .map(|(_, v)| v.as_str())
    }

    pub fn words(&self) -> &[String] {
        &self.words
    }

    /// Exactly `n` words beside the options.
    pub fn expect_words(&self, n: usize) {
        if self.words.len() != n {
            self.fail(&format!("{n} arguments wanted"));
        }
    }

    fn parse<T: std::str::FromStr>(&self, text: &str) -> T {
        text.parse()
            .unwrap_or_else(|_| self.fail(&format!("not a number: {text}")))
    }

    pub fn number<T: std::str::FromStr>(&self, i: usize) -> T {
        let Some(w) = self.words.get(i) else {
            self.fail("a number is missing")
        };
        self.parse(w)
    }

    /// FROM TO N: seeds and the number of operations of each.
    pub fn seeds(&self) -> (Range<u64>, usize) {
        self.expect_words(3);
        (self.number(0)..self.number(1), self.number(2))
    }

    /// How many seeds at a time: 1 unless it is said.
    pub fn jobs(&self) -> usize {
        self.value("--jobs").map_or(1, |text| self.parse(text))
    }

    /// The lines of a seed's trace: of four cores with `--cores`.
    pub fn made(&self, seed: u64, n: usize) -> Vec<Line> {
        if self.flag("--cores") {
            trace_of_cores(seed, n, self.style())
        } else {
            trace(seed, n, self.style())
        }
    }

    pub fn style(&self) -> Style {
        match (self.flag("--strict"), self.flag("--wild")) {
            (false, false) => Style::Full,
            (true, false) => Style::Strict,
            (false, true) => Style::Wild,
            (true, true) => self.fail("--strict and --wild exclude each other"),
        }
    }

    pub fn mistake(&self) -> Option<Mistake> {
        let n: usize = self.parse(self.value("--mistake")?);
        match MISTAKES.get(n.wrapping_sub(1)) {
            Some((m, _)) => Some(*m),
            None => self.fail(&format!("mistakes are 1 to {}", MISTAKES.len())),
        }
    }

    /// The core behind the C boundary, if it is asked for: by `a72_step`, or by the function of each operation; or the one of
    /// plain Rust.
    fn foreign_core(&self) -> Option<Box<dyn Core>> {
        match ["--c", "--each", "--plain"].map(|name| self.flag(name)) {
            [false, false, false] => None,
            [true, false, false] => Some(Box::new(CCore::new())),
            [false, true, false] => Some(self.each()),
            [false, false, true] => Some(Box::new(PlainCore::default())),
            _ => self.fail("--c, --each and --plain exclude each other"),
        }
    }

    #[cfg(feature = "rattle")]
    fn each(&self) -> Box<dyn Core> {
        Box::new(CCore::by_each())
    }

    #[cfg(not(feature = "rattle"))]
    fn each(&self) -> Box<dyn Core> {
        self.fail("--each wants the feature `rattle`")
    }

    /// The core beside the Rust: the model, the model with a mistake, the one behind the C boundary or that of plain Rust.
    pub fn other_core(&self) -> Box<dyn Core> {
        let model = || Box::new(DocCore::with_mistake(self.mistake()));
        self.foreign_core().unwrap_or_else(|| model())
    }

    /// Four cores beside the Rust's: the model's, right or with a mistake, those behind the C boundary or those of plain Rust.
    pub fn other_cluster(&self) -> Box<dyn Cluster> {
        match ["--c", "--each", "--plain"].map(|name| self.flag(name)) {
            [false, false, false] => Box::new(DocFour::with_mistake(self.mistake())),
            [true, false, false] => Box::new(CFour::new()),
            [false, true, false] => self.each_of_four(),
            [false, false, true] => Box::new(PlainFour::default()),
            _ => self.fail("--c, --each and --plain exclude each other"),
        }
    }

    #[cfg(feature = "rattle")]
    fn each_of_four(&self) -> Box<dyn Cluster> {
        Box::new(CFour::by_each())
    }

    #[cfg(not(feature = "rattle"))]
    fn each_of_four(&self) -> Box<dyn Cluster> {
        self.fail("--each wants the feature `rattle`")
    }

    /// What does what ought to be done, a core, or four where a trace names them: the Rust in its domain and what stands in
    /// its place outside it, the model, or what is behind the C boundary, or plain Rust.
    pub fn right_core(&self) -> Box<dyn Cluster> {
        if ["--model", "--c", "--each", "--plain"].iter().any(|name| self.flag(name)) {
            self.one_core()
        } else {
            Box::new(Four::<Reference>::default())
        }
    }

    /// A core, or four where a trace names them: the Rust, the model, or what is behind the C boundary, or plain Rust.
    pub fn one_core(&self) -> Box<dyn Cluster> {
        let foreign = ["--c", "--each", "--plain"].iter().any(|name| self.flag(name));
        match (self.flag("--model"), foreign) {
            (false, false) => Box::new(Four::<RustCore>::default()),
            (true, false) => Box::new(DocFour::default()),
            (false, true) => self.other_cluster(),
            (true, true) => self.fail("--model excludes --c, --each and --plain"),
        }
    }

    /// A trace's lines with their numbers.
    pub fn trace(&self, path: &str) -> Vec<(usize, Line)> {
        Line::parse_all(&self.text(path)).unwrap_or_else(|e| self.fail(&format!("{path}: {e}")))
    }

    pub fn text(&self, path: &str) -> String {
        std::fs::read_to_string(path).unwrap_or_else(|e| self.fail(&format!("{path}: {e}")))
    }
}

pub const NOTHING: &str = "NOTHING WAS TESTED";

/// The words that end a test: whether all that it saw was good. A test that saw nothing has failed.
pub fn verdict<'a>(seen: u64, good: bool, words: [&'a str; 2]) -> (&'a str, bool) {
    match (good, seen) {
        (false, _) => (words[1], false),
        (true, 0) => (NOTHING, false),
        (true, _) => (words[0], true),
    }
}

/// End with status 0 or 1.
pub fn finish(ok: bool) -> ! {
    std::process::exit(!ok as i32)
}
