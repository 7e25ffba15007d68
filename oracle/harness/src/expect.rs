//! Expectations in a trace: after `#=` on an operation's line stands its answer, then after `;` values of the state
//! by the names of [`crate::State::line`] and [`crate::state::REGS`], and `rd`, the descriptors read; then after `--` the
//! reason. Answer or values may be left out.
use crate::op::{Ans, Line};
use crate::{feed, Core, Ram};

#[derive(Default)]
pub struct Outcome {
    pub expectations: usize,
    /// Expectations of operations that the core has not: held to nothing, and not counted above.
    pub left_out: usize,
    /// What went otherwise, one line each.
    pub wrong: Vec<String>,
}

/// The answer and the values that a line expects.
fn wanted(text: &str) -> Option<(&str, Vec<&str>)> {
    let (_, comment) = text.split_once('#')?;
    let want = comment.strip_prefix('=')?.split("--").next().unwrap_or("");
    let (answer, values) = want.split_once(';').unwrap_or((want, ""));
    Some((answer.trim(), values.split_whitespace().collect()))
}

fn judge(text: &str, answer: Ans, core: &dyn Core) -> Vec<String> {
    let Some((want, values)) = wanted(text) else {
        return Vec::new();
    };
    let (mut wrong, state) = (Vec::new(), core.state());
    if want.is_empty() && values.is_empty() {
        wrong.push("an expectation of nothing".into());
    }
    if !want.is_empty() && want != answer.to_string() {
        wrong.push(format!("answer is {answer}, not {want}"));
    }
    for pair in values {
        let (name, v) = pair.split_once('=').unwrap_or((pair, ""));
        let is = match name {
            "rd" => Some(format!("{:x}", core.reads())),
            _ => state.value(name),
        };
        match is {
            Some(is) if is == v => {}
            Some(is) => wrong.push(format!("{name} is {is}, not {v}")),
            None => wrong.push(format!("no value is named {name}")),
        }
    }
    wrong
}

/// Run the trace on a core and hold it to its expectations.
pub fn hold(text: &str, core: &mut dyn Core) -> Result<Outcome, String> {
    let mut ram = Ram::default();
    let mut outcome = Outcome::default();
    core.restart();
    for (i, l) in text.lines().enumerate() {
        let at = |e: String| format!("line {}: {e}", i + 1);
        let lines = Line::parse(l).map_err(at)?;
        let answer = lines.iter().filter_map(|line| feed(line, core, &mut ram)).last();
        let expects = wanted(l).is_some();
        if let (Some(Line::Op(_)), None) = (lines.last(), &answer) {
            outcome.left_out += expects as usize;
            continue;
        }
        outcome.expectations += expects as usize;
        match answer {
            Some(a) => outcome
                .wrong
                .extend(judge(l, a, core).into_iter().map(at)),
            None if expects => outcome
                .wrong
                .push(at("no operation to expect something of".into())),
            None => {}
        }
    }
    Ok(outcome)
}
