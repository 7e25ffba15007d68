//! Two clusters side by side, the Rust's and another: after every operation its answer, the descriptors read, RAM, and
//! all that each of the four cores holds. A core that did nothing and heard nothing is compared at little cost
//! ([`Cluster::unmoved`]), and in whole once in a while and at the end.
use super::{place, Cluster, Four, CORES};
use crate::compare::{report, Difference, Side, Step};
use crate::domain::Reference;
use crate::op::Line;
use crate::{feed, Core, Ram};

/// After how many operations a core that nothing moved is compared in whole.
const WHOLE: usize = 64;

/// Which cores the last operation could move, one of each four; and all now and then.
struct Moved {
    operations: usize,
    put: [bool; CORES],
}

impl Moved {
    fn whole(&mut self, four: &Four<Reference>) -> [bool; CORES] {
        self.operations += 1;
        let all = four.shared.is_some() || self.operations % WHOLE == 0;
        let caller = place(four.number());
        let put = std::mem::take(&mut self.put);
        std::array::from_fn(|i| all || put[i] || caller == Some(i))
    }
}

/// The first core that does not hold what the Rust's does.
fn other_core(other: &mut dyn Cluster, four: &Four<Reference>, whole: [bool; CORES]) -> Option<usize> {
    (0..CORES).find(|&i| {
        let rust = &four.cores[i].rust;
        !match whole[i] {
            true => other.same(i, rust),
            false => other.unmoved(i, rust),
        }
    })
}

/// Feed the lines to fresh cores; the first difference, if any. `watch` sees each operation of the Rust.
pub fn compare(lines: &[Line], other: &mut dyn Cluster, mut watch: impl FnMut(Step)) -> Option<Difference> {
    let mut four = Four::<Reference>::default();
    other.restart();
    let mut ram = Ram::default();
    let mut other_ram = if other.seals() {
        Ram::sealable()
    } else {
        Ram::default()
    };
    let mut moved = Moved {
        operations: 0,
        put: [true; CORES],
    };
    let last = lines.iter().rposition(|line| matches!(line, Line::Op(_)));
    for (at, line) in lines.iter().enumerate() {
        let tlb = &four.spoken().rust.cpu.tlb;
        let before = (tlb.hits, tlb.walks);
        let writes = ram.writes;
        let x = feed(line, &mut four, &mut ram);
        let y = feed(line, other, &mut other_ram);
        let (Line::Op(op), Some(answer)) = (line, &x) else {
            match (line, place(four.number())) {
                (Line::Put(_), Some(i)) => moved.put[i] = true,
                (Line::Fresh, _) => moved.put = [true; CORES],
                _ => {}
            }
            continue;
        };
        watch(Step {
            op,
            answer,
            before,
            rust: &four.spoken().rust,
            judge: four.judge(),
            left_out: y.is_none(),
            cores: Some((four.number(), four.shared)),
        });
        let mut whole = moved.whole(&four);
        if Some(at) == last {
            whole = [true; CORES];
        }
        if y.is_none() {
            continue;
        }
        let unwritten = other.seals() && !op.may_write_ram() && ram.writes == writes;
        let same = x == y && four.reads() == other.reads() && (unwritten || ram == other_ram);
        let wrong = other_core(other, &four, whole);
        if !same || wrong.is_some() {
            let shown = wrong.or(place(four.number())).unwrap_or(0);
            let (a, b) = (
                Side::of(x, four.reads(), four.nth(shown), &ram),
                Side::of(y, other.reads(), other.nth(shown), &other_ram),
            );
            return Some(Difference {
                at,
                report: format!(
                    "core {:x}, core {shown} shown: {}",
                    four.number(),
                    report(line, &a, &b)
                ),
            });
        }
    }
    None
}
