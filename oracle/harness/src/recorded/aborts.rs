//! A trace through every kind of abort entry, from every level, under every routing.
use crate::generate::keys::{HCR, SCR, VBAR};
use crate::op::{Line, Op};
use pimu::aarch64::Exception;

const NS: u64 = 1;
const SMD: u64 = 1 << 7;
const HCE: u64 = 1 << 8;
const TSC: u64 = 1 << 19;
const TGE: u64 = 1 << 27;

/// SCR_EL3 and HCR_EL2.
const ROUTINGS: [(u64, u64); 6] = [
    (0, 0),
    (HCE, TGE),
    (NS | HCE, 0),
    (NS | HCE, TGE),
    (NS | SMD, TSC),
    (NS, TSC),
];

fn exceptions() -> [Exception; 9] {
    let addr = 0xFFFF_0000_4000_1234;
    [
        Exception::Undefined,
        Exception::Svc(0x1234),
        Exception::Hvc(0xFFFF),
        Exception::Smc(1),
        Exception::Brk(0x8000),
        Exception::DataAbort {
            addr,
            write: false,
            fsc: 0x07,
        },
        Exception::DataAbort {
            addr,
            write: true,
            fsc: 0x0F,
        },
        Exception::InsnAbort { addr, fsc: 0x0D },
        Exception::PcAlignment,
    ]
}

pub fn lines() -> Vec<Line> {
    let mut ops: Vec<Op> = (1..4).map(|l| Op::Reg(VBAR[l], 0x1_0000 * l as u64)).collect();
    for (scr, hcr) in ROUTINGS {
        ops.extend([Op::Level(3), Op::Reg(SCR, scr), Op::Reg(HCR, hcr)]);
        for level in 0..4 {
            for e in exceptions() {
                ops.extend([Op::Level(level), Op::Abort(e)]);
            }
        }
    }
    [Line::Fresh, Line::Window(0, 0)]
        .into_iter()
        .chain(ops.into_iter().map(Line::Op))
        .collect()
}
