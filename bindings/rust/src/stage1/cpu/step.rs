// Written by tools/plain from crates/cpu/src/step.rt: change that.
//! One call on the core.

use crate::stage1::cpu::call::{Call, Reply};
use crate::stage1::cpu::check::Check;
use crate::stage1::cpu::{Core, check};
use crate::stage1::tlb::work::Work;
use crate::stage1::word::ram::Width;

impl Core {
    /// The operation that a call is.
    #[inline]
    fn run(&mut self, base: u64, ram: &mut [u8], call: Call, work: &mut Work) -> Reply {
        match call {
            Call::Translate(kind, va) => Reply::translated(va, self.translate(base, ram, va, kind, work)),
            Call::DataPa(va) => Reply::reached(self.data_pa(base, ram, va, work)),
            Call::FetchPa(va) => Reply::reached(self.fetch_pa(base, ram, va, work)),
            Call::Load(va, size) => match Width::of_size(size) {
                Some(width) => Reply::from(self.read(base, ram, va, width, work)),
                None => Reply::from(Check::Size),
            },
            Call::Store(va, size, value) => match Width::of_size(size) {
                Some(width) => Reply::from(self.write(base, ram, va, width, value, work)),
                None => Reply::from(Check::Size),
            },
            Call::Fetch(va) => Reply::from(self.fetch(base, ram, va, work)),
            Call::System(e) => Reply::from(self.sys(base, ram, e, work)),
            Call::Register(key, value) => Reply::from(self.write_reg(key, value)),
            Call::Level(level) => {
                self.set_level((level % 4) as u8);
                Reply::Done
            }
            Call::Mark(mark) => {
                self.set_mark(mark);
                Reply::Done
            }
            Call::General(number, value) => {
                self.set_reg(number, value);
                Reply::Done
            }
            Call::Abort(e) => {
                self.take_sync(e);
                Reply::Done
            }
            Call::Census(_, _) | Call::Windows | Call::Flip(..) => Reply::Done,
        }
    }

    /// The number of the first check that the call misses, and then nothing changes; else the operation. The
    /// descriptors that it reads are added to `work`.
    #[inline]
    pub fn step(&mut self, base: u64, ram: &mut [u8], call: Call, work: &mut Work) -> Reply {
        match check::missed(self.privilege.level, base, ram.len() as u64, call) {
            Ok(()) => self.run(base, ram, call, work),
            Err(check) => Reply::from(check),
        }
    }
}
