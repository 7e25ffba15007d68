//! Hold a core to a recorded file.
use super::short::{expand, Case};
use super::{digests, reads_of, summary, AFTER, LINE, LINE_OF_FOUR, MAGIC};
use crate::cluster::Cluster;
use crate::ffi::{decode, encode_answer};
use crate::op::{Line, Op};
use crate::{feed, Ram};

fn words(bytes: &[u8]) -> Result<Vec<u64>, String> {
    let words: Vec<u64> = bytes
        .chunks_exact(8)
        .map(|c| u64::from_le_bytes(c.try_into().unwrap()))
        .collect();
    let whole = |n: u64| n as usize == words.len() && 8 * words.len() == bytes.len();
    match words.get(..8) {
        Some(&[MAGIC, n, _, operations, .., line, outside])
            if whole(n) && [LINE, LINE_OF_FOUR].contains(&(line as usize)) && outside <= operations =>
        {
            Ok(words)
        }
        _ => Err("no recorded file, or not a whole one".into()),
    }
}

/// What a core replayed.
#[derive(Default)]
pub struct Replayed {
    /// Operations that went as recorded.
    pub operations: u64,
    /// Operations that the core has not.
    pub left_out: u64,
    /// Cases that another implementation answered.
    pub cases: u64,
    /// What was held to a record: operations with an answer, and lines of cases that say what is due.
    pub judged: u64,
}

struct Replay<'a> {
    core: &'a mut dyn Cluster,
    /// Whether a digest of each of four cores stands after an operation's other words.
    several: bool,
    ram: Ram,
    rest: &'a [u64],
    answer: [u64; 4],
    case: Case,
    done: Replayed,
}

impl Replay<'_> {
    /// The next line's eight words, and whether it is a short one.
    fn next(&mut self) -> Option<([u64; 8], bool)> {
        let first = *self.rest.first()?;
        let (line, n, short) = if first & 0x80 != 0 {
            let (line, n) = expand(first, &self.rest[1..])?;
            (line, 1 + n, true)
        } else {
            (*self.rest.first_chunk::<8>()?, 8, false)
        };
        self.rest = &self.rest[n..];
        Some((line, short))
    }

    fn line(&mut self) -> Result<(), String> {
        let (words, short) = self.next().ok_or("not whole")?;
        if words[0] >= 70 {
            self.done.cases += (words[0] == 73) as u64;
            self.done.judged += matches!(words[0], 71 | 74) as u64;
            return self.case.line(&words, &self.core.state(), &self.answer);
        }
        let line = decode(&words).ok_or("not a line")?;
        let answer = feed(&line, self.core, &mut self.ram);
        let Line::Op(op) = line else {
            return Ok(());
        };
        let want = match short {
            true => None,
            false => Some(self.tail().ok_or("not whole")?),
        };
        let Some(answer) = answer else {
            self.done.left_out += 1;
            return Ok(());
        };
        self.done.operations += 1;
        self.answer = encode_answer(&answer);
        self.done.judged += want.is_some() as u64;
        match want {
            Some(want) => self.judge(&op, &want).map_err(|e| format!("{op}: {e}")),
            None => Ok(()),
        }
    }

    fn tail(&mut self) -> Option<Vec<u64>> {
        let n = AFTER + if self.several { LINE_OF_FOUR - LINE } else { 0 };
        let (want, rest) = self.rest.split_at_checked(n)?;
        self.rest = rest;
        Some(want.to_vec())
    }

    fn judge(&self, op: &Op, want: &[u64]) -> Result<(), String> {
        let after = summary(&*self.core, self.ram.digest());
        let mut is = [self.answer.as_slice(), &after, &[reads_of(op, &*self.core)]].concat();
        if self.several {
            is.extend(digests(&*self.core));
        }
        match (0..want.len()).find(|&i| is[i] != want[i]) {
            Some(i) => Err(format!("word {} is {:x}, not {:x}", 8 + i, is[i], want[i])),
            None => Ok(()),
        }
    }
}

/// The error says which line first went otherwise.
pub fn replay(bytes: &[u8], core: &mut dyn Cluster) -> Result<Replayed, String> {
    let words = words(bytes)?;
    core.restart();
    let mut r = Replay {
        core,
        several: words[6] == LINE_OF_FOUR as u64,
        ram: Ram::default(),
        rest: words.get(8..).ok_or("no whole header")?,
        answer: [0; 4],
        case: Case::default(),
        done: Replayed::default(),
    };
    let mut lines = 0;
    while !r.rest.is_empty() {
        lines += 1;
        r.line().map_err(|e| format!("line {lines}: {e}"))?;
    }
    let done = r.done;
    if (lines, done.operations + done.left_out, done.cases) != (words[2], words[3], words[5]) {
        return Err("the header has other numbers of lines, operations or cases".into());
    }
    Ok(done)
}
