//! How soon traces tell each wrong core from the Rust.
use harness::cli::{finish, Args};
use harness::cluster::Four;
use harness::domain::Reference;
use harness::generate::{trace, trace_of_cores, Style};
use harness::model::{DocCore, DocFour, Mistake, MISTAKES};
use harness::{feed, Ans, Core, Line, Ram, State};

const USAGE: &str = "wrong-cores SEED N [--cores]
  Runs each of the model's mistakes beside the Rust (outside the Rust's domain beside what stands in its place) on
  strict traces from SEED on, those of a cluster beside four of the Rust's cores on traces of four (wild ones, where the
  mistake wants something pending in a core that is put in), for at most about N operations, and says after how many operations the state told them
  apart, and when the answers, descriptors read, counters, registers or RAM alone did. --cores: those of four cores alone. Status 1 where one is not caught
  by the latter.";

/// What the scope compares: no hints and no entries.
fn shown(s: &State) -> impl PartialEq {
    let counters = (s.levels, s.flushes, s.drops, s.epoch);
    (
        s.regs,
        s.x,
        counters,
        s.broadcast,
        s.last_pa,
        s.abort_pa,
        s.level,
        s.mark,
    )
}

#[derive(Default)]
struct Caught {
    by_state: Option<u64>,
    by_answer: Option<u64>,
}

/// The right core and the wrong one, or four of each.
struct Pair {
    right: Box<dyn Core>,
    wrong: Box<dyn Core>,
    rams: [Ram; 2],
}

impl Pair {
    fn new(mistake: Mistake) -> Pair {
        let of_cores = mistake.is_of_cores();
        let (right, wrong): (Box<dyn Core>, Box<dyn Core>) = if of_cores {
            (
                Box::new(Four::<Reference>::default()),
                Box::new(DocFour::with_mistake(Some(mistake))),
            )
        } else {
            (
                Box::new(Reference::default()),
                Box::new(DocCore::with_mistake(Some(mistake))),
            )
        };
        Pair {
            right,
            wrong,
            rams: Default::default(),
        }
    }

    fn feed(&mut self, line: &Line) -> [Option<Ans>; 2] {
        let [a, b] = &mut self.rams;
        [
            feed(line, self.right.as_mut(), a),
            feed(line, self.wrong.as_mut(), b),
        ]
    }

    /// Whether the whole state differs, and whether something that the scope compares does. Of four cores it is the state
    /// of the one that is spoken to.
    fn differs(&self, answers: [Option<Ans>; 2]) -> (bool, bool) {
        let (s, t) = (self.right.state(), self.wrong.state());
        let reads = self.right.reads() != self.wrong.reads();
        let open = answers[0] != answers[1] || reads || self.rams[0] != self.rams[1];
        (open || s != t, open || shown(&s) != shown(&t))
    }
}

/// Lists that the mistake shows on.
fn lines(mistake: Mistake, seed: u64) -> Vec<Line> {
    let style = if mistake.wants_pending() {
        Style::Wild
    } else {
        Style::Strict
    };
    match mistake.is_of_cores() {
        true => trace_of_cores(seed, 3000, style),
        false => trace(seed, 3000, style),
    }
}

fn hunt(mistake: Mistake, first_seed: u64, limit: u64) -> Caught {
    let mut caught = Caught::default();
    let mut operations = 0;
    for seed in first_seed.. {
        let mut pair = Pair::new(mistake);
        for line in lines(mistake, seed) {
            let answers = pair.feed(&line);
            if !matches!(line, Line::Op(_)) {
                continue;
            }
            operations += 1;
            let (by_state, by_answer) = pair.differs(answers);
            if by_state {
                caught.by_state.get_or_insert(operations);
            }
            if by_answer {
                caught.by_answer = Some(operations);
            }
            if by_answer || operations >= limit {
                return caught;
            }
        }
    }
    caught
}

fn main() {
    let args = Args::new(USAGE, &["--cores"], &[]);
    args.expect_words(2);
    let of_cores = args.flag("--cores");
    let all = MISTAKES.iter().enumerate();
    let wanted: Vec<_> = all
        .filter(|(_, (mistake, _))| !of_cores || mistake.is_of_cores())
        .collect();
    let mut number = 0;
    for (i, (mistake, name)) in &wanted {
        let c = hunt(*mistake, args.number(0), args.number(1));
        let show = |n: Option<u64>| n.map_or("NOT CAUGHT".into(), |n| n.to_string());
        println!(
            "{:2} {name}: by state {}, by answer {}",
            i + 1,
            show(c.by_state),
            show(c.by_answer)
        );
        number += c.by_answer.is_some() as usize;
    }
    println!("{number} of {} wrong cores caught", wanted.len());
    finish(number == wanted.len())
}
