//! A trace's lines: operations on a core, and what happens around them; and the answers of operations.
use crate::census::Counts;
use crate::wild::Part;
use crate::windows::{Found, PageFault, Piece};
use pimu::aarch64::Exception;

/// An operation on a core. [`crate::text`] has the text form, [`crate::ffi`] the numeric one.
#[derive(Clone, Copy, Debug, PartialEq, Eq)]
pub enum Op {
    /// `translate` of a kind: 1 read, 2 write, 4 fetch.
    Translate(u8, u64),
    DataPa(u64),
    FetchPa(u64),
    /// Address and size.
    Load(u64, u32),
    /// Address, size and value.
    Store(u64, u32, u64),
    Fetch(u64),
    /// op1, CRn, CRm, op2, register.
    Sys(u32, u32, u32, u32, u32),
    /// Key and value.
    Reg(u32, u64),
    Level(u32),
    Mark(bool),
    SetX(u32, u64),
    Abort(Exception),
    /// The first address and the number of pages.
    Census(u64, u64),
    /// The list of windows is what lines before it brought.
    Windows,
    /// Kind, whether EL0's view is asked for, address: the first bit of RAM whose flip changes the answer.
    Flip(u8, bool, u64),
    // Leaves, on the registers as they stand. They change nothing.
    LeafAsid,
    LeafOn(u8),
    LeafUntag(u8, u64),
    LeafWalk(u8, u64),
    LeafBits(u64),
    LeafPerm(u8),
    LeafBank(u32),
    LeafVector(u32, u32, bool),
    LeafSyndrome(Exception, u32, u32, u64),
    // Pokes: states that no list reaches, or not soon.
    PokeLevel(u32),
    PokePc(u64),
    PokeSpsel(bool),
    PokeGeneration(u32),
    /// EL0's hits and walks, flushes, drops, epoch: each set to this; the hits and walks of EL1 to EL3 to 0.
    PokeCounters(u64),
    /// Another core took the pending broadcast.
    TakeBroadcast,
}

impl Op {
    /// Whether it is an operation of the list (and no leaf or poke).
    pub fn is_step(&self) -> bool {
        use Op::*;
        self.takes_ram() || matches!(self, Reg(..) | Level(_) | Mark(_) | SetX(..) | Abort(_))
    }

    /// Whether it is a poke: a change of a core that no operation of the list makes.
    pub fn is_poke(&self) -> bool {
        use Op::*;
        matches!(
            self,
            PokeLevel(_) | PokePc(_) | PokeSpsel(_) | PokeGeneration(_) | PokeCounters(_) | TakeBroadcast
        )
    }

    /// Whether it is a leaf: a function of the registers alone, which changes nothing.
    pub fn is_leaf(&self) -> bool {
        !self.is_step() && !self.is_poke()
    }

    /// Whether check 2 looks at the window.
    pub fn takes_ram(&self) -> bool {
        use Op::*;
        matches!(
            self,
            Translate(..)
                | DataPa(_)
                | FetchPa(_)
                | Load(..)
                | Store(..)
                | Fetch(_)
                | Sys(..)
                | Census(..)
                | Windows
                | Flip(..)
        )
    }

    /// Whether the descriptors that it read stand beside its answer.
    pub fn reports(&self) -> bool {
        self.takes_ram() && !self.looks()
    }

    /// Whether it looks at core and RAM, and moves nothing.
    pub fn looks(&self) -> bool {
        matches!(self, Op::Census(..) | Op::Windows | Op::Flip(..))
    }

    /// Whether it may write RAM. A bit is flipped in place and back.
    pub fn may_write_ram(&self) -> bool {
        matches!(self, Op::Store(..) | Op::Sys(3, 7, 4, 1, _) | Op::Flip(..))
    }
}

#[derive(Clone, Debug, PartialEq, Eq)]
pub enum Ans {
    Ok,
    Val(u64),
    None,
    /// A walk's leaf: physical address, permissions, level, attribute index, shareability, NS, global.
    Leaf(u64, u8, u8, u8, u8, bool, bool),
    Pair(u64, u64),
    /// Those of a census.
    Counts(Box<Counts>),
    /// The numbers of the checks 1 to 7, 8 of a core that there is not, and 9 of a list of windows that is none.
    Number(u8),
    /// Of a list of windows the first page that faults: window, page, status.
    Page(u64, u64, u8),
    /// A bit of RAM: the descriptor's physical address, and which of its 64 bits.
    Bit(u64, u8),
    Undefined,
    Unimplemented,
    /// A translation's fault: the address translated and the status.
    Fault(u64, u8),
    /// A load's or store's: address, write, status.
    Data(u64, bool, u8),
    /// A fetch's: address, status.
    Insn(u64, u8),
    /// Only where the debug build's checks are on.
    Panic,
}

impl Ans {
    /// Whether it says that nothing was done. Of a list of windows a page that faults does, too.
    pub fn refuses(&self) -> bool {
        matches!(self, Ans::Number(_) | Ans::Page(..) | Ans::Undefined | Ans::Unimplemented)
    }

    /// What a right list of windows comes to.
    pub fn of(found: Found) -> Ans {
        match found {
            Ok(Some((first, second))) => Ans::Pair(first as u64, second as u64),
            Ok(None) => Ans::None,
            Err(PageFault { window, page, status }) => Ans::Page(window as u64, page as u64, status),
        }
    }
}

#[derive(Clone, Copy, Debug, PartialEq, Eq)]
pub enum Line {
    /// A fresh core, `Cpu::new`.
    Fresh,
    /// The window is now this base and length; bytes stay by offset, new ones are zero.
    Window(u64, u64),
    /// All bytes of the window become zero.
    Zero,
    /// Another agent writes eight bytes at a physical address.
    Poke(u64, u64),
    /// A part of the core's state is overwritten.
    Put(Part),
    /// These bytes come to those of a list of windows, which the next [`Op::Windows`] takes.
    Bytes(Piece),
    /// What follows is the core's of this number: of one of four from now on, or of none.
    Core(u64),
    Op(Op),
}
