//! What the core is asked, written as a trace that the tool `a72` reads.
use std::fmt;
use std::fs::File;
use std::io::{self, BufWriter, Write};

use super::Inval;
use a72::{registers, Core, Ram};

/// A trace that is being written, or none. A copy of a core does not go on with it.
#[derive(Default)]
pub(super) struct Recording(Option<Box<Trace>>);

struct Trace {
    out: BufWriter<File>,
    path: String,
    /// Whether the window of RAM stands in the trace.
    begun: bool,
    /// Of a line that is not at its end: the table descriptors that were read since it began.
    open: Option<u64>,
}

impl Clone for Recording {
    fn clone(&self) -> Recording {
        Recording(None)
    }
}

impl Recording {
    /// A trace in a file. RAM goes to `PATH.ram` when the first access shows it.
    pub(super) fn to(path: &str) -> io::Result<Recording> {
        Ok(Recording(Some(Box::new(Trace {
            out: BufWriter::new(File::create(path)?),
            path: path.into(),
            begun: false,
            open: None,
        }))))
    }

    #[inline(always)]
    pub(super) fn is_on(&self) -> bool {
        self.0.is_some()
    }

    /// A line, if anything is recorded. What cannot be written ends the recording.
    #[inline]
    pub(super) fn line(&mut self, line: fmt::Arguments) {
        if self.is_on() {
            self.write(line, None);
        }
    }

    /// The operation whose line was written last read so many descriptors.
    pub(super) fn reads(&mut self, reads: u64) {
        if let Some(open) = self.0.as_mut().and_then(|trace| trace.open.as_mut()) {
            *open += reads;
        }
    }

    #[cold]
    fn write(&mut self, line: fmt::Arguments, open: Option<u64>) {
        if let Some(trace) = &mut self.0 {
            if let Err(e) = trace.line(line, open) {
                self.fails(e);
            }
        }
    }

    pub(super) fn end(&mut self) -> io::Result<()> {
        self.0.take().map_or(Ok(()), |mut trace| {
            trace.close()?;
            trace.out.flush()
        })
    }

    #[cold]
    fn fails(&mut self, e: io::Error) {
        if let Some(trace) = self.0.take() {
            eprintln!("{}: {e}: the recording ends here", trace.path);
        }
    }

    /// A line of an operation that is about to be made over this RAM: at its end stands how many descriptors it read.
    pub(super) fn access(&mut self, ram: &Ram, line: fmt::Arguments) {
        match &mut self.0 {
            Some(trace) if !trace.begun => {
                trace.begun = true;
                if let Err(e) = trace.begin(ram) {
                    self.fails(e);
                }
            }
            _ => {}
        }
        self.write(line, Some(0));
    }

    /// An invalidation, as a `TLBI` that asks for it: at a level and in a regime that may.
    pub(super) fn invalidated(&mut self, what: Inval, core: &Core) {
        if !self.is_on() {
            return;
        }
        let value = |key| core.register(key).unwrap_or(0);
        let tcr = value(registers::TCR_EL1);
        let four_k = |key| value(key) >> 14 & 3 == 0;
        let at = |op1: u64, op2, xt| (op1, op2, xt);
        let (op1, op2, xt) = match what {
            Inval::Page(page) if tcr >> 14 & 3 == 0 && tcr >> 30 & 3 == 2 => at(0, 1, page),
            Inval::Page(page) if four_k(registers::TCR_EL2) => at(4, 1, page),
            Inval::Page(page) if four_k(registers::TCR_EL3) => at(6, 1, page),
            // Where ASIDs have eight bits no entry has such a one: the hints drop.
            Inval::Asid(asid) if asid > 0xFF && tcr >> 36 & 1 == 0 => return self.hints_dropped(core),
            Inval::Asid(asid) => at(0, 2, u64::from(asid) << 48),
            // No TLBI asks for less than all: of such a page the trace drops more than the run did.
            Inval::All | Inval::Page(_) => at(0, 0, 0),
        };
        self.at_level(core, (op1 / 2).max(1), |trace| {
            trace.line(format_args!("x 0 {xt:x}"));
            trace.line(format_args!("sys {op1:x} 8 7 {op2:x} 0"));
        });
    }

    /// The hints dropped and nothing else: two writes of the register with the ASID, to another one and back.
    pub(super) fn hints_dropped(&mut self, core: &Core) {
        if !self.is_on() {
            return;
        }
        let value = |key| core.register(key).unwrap_or(0);
        let of_upper = value(registers::TCR_EL1) >> 22 & 1 == 1;
        let key = if of_upper {
            registers::TTBR1_EL1
        } else {
            registers::TTBR0_EL1
        };
        let (number, now) = (u64::from(key), value(key));
        self.at_level(core, 1, |trace| {
            trace.line(format_args!("reg {number:x} {:x}", now ^ 1 << 48));
            trace.line(format_args!("reg {number:x} {now:x}"));
        });
    }

    /// Lines at a level that is high enough, and back.
    fn at_level(&mut self, core: &Core, least: u64, lines: impl FnOnce(&mut Recording)) {
        let level = core.level();
        if level < least {
            self.line(format_args!("level {least:x}"));
        }
        lines(self);
        if level < least {
            self.line(format_args!("level {level:x}"));
        }
    }
}

impl Trace {
    /// The end of a line that waits for it, then this line; `open` where it has to wait.
    fn line(&mut self, line: fmt::Arguments, open: Option<u64>) -> io::Result<()> {
        self.close()?;
        write!(self.out, "{line}")?;
        self.open = open;
        if open.is_none() {
            writeln!(self.out)?;
        }
        Ok(())
    }

    fn close(&mut self) -> io::Result<()> {
        match self.open.take() {
            Some(reads) => writeln!(self.out, " #=; rd={reads:x}"),
            None => Ok(()),
        }
    }

    /// The window, and RAM as it is now.
    fn begin(&mut self, ram: &Ram) -> io::Result<()> {
        let image = format!("{}.ram", self.path);
        std::fs::write(&image, &*ram.bytes)?;
        writeln!(self.out, "window {:x} {:x}", ram.base, ram.bytes.len())?;
        writeln!(self.out, "load {image} {:x}", ram.base)
    }
}

/// A recording that nobody ends is whole up to its last line.
impl Drop for Trace {
    fn drop(&mut self) {
        let _ = self.close();
    }
}
