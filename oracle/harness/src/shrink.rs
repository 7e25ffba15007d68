//! The shortest trace found that still tells the Rust from another core, by leaving lines out.
use crate::op::Line;

/// `None` where the trace shows no difference. `differs` gives the place of the first one, from 0.
pub fn shrink(mut lines: Vec<Line>, mut differs: impl FnMut(&[Line]) -> Option<usize>) -> Option<Vec<Line>> {
    let mut differs = |lines: &[Line]| differs(lines).map(|at| at + 1);
    lines.truncate(differs(&lines)?);
    let mut chunk = lines.len() / 2;
    while chunk > 0 {
        let mut at = 0;
        while at < lines.len() {
            let mut fewer = lines.clone();
            fewer.drain(at..(at + chunk).min(lines.len()));
            match differs(&fewer) {
                Some(n) => {
                    fewer.truncate(n);
                    lines = fewer;
                }
                None => at += chunk,
            }
        }
        chunk = if chunk == 1 {
            0
        } else {
            chunk.div_ceil(2).min(chunk - 1)
        };
    }
    Some(lines)
}
