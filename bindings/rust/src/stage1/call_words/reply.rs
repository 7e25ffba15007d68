// Written by tools/plain from crates/call_words/src/reply.rt: change that.
//! A reply as a number and a report, as four words, and as the five of a step.

use crate::stage1::cpu::call::Reply;
use crate::stage1::exception::kind::{Exception, Stop};
use crate::stage1::tlb::work::Work;
use crate::stage1::word::bits;

/// What a call reports beside its number. With a number from 1 to 255 nothing of it is written.
#[repr(C)]
#[derive(Clone, Copy, Debug, PartialEq, Eq)]
pub struct Report {
    /// the value, or of a data abort its address; what has neither leaves it
    pub value: u64,
    /// the table descriptors that the call's walks read
    pub reads: u64,
}

/// The number of an exception that stops an operation, and the report of an abort.
#[inline]
fn put_answer(e: Exception, work: Work, ans: &mut Report) -> u64 {
    match e {
        Exception::DataAbort(a) => {
            *ans = Report {
                value: a.addr,
                reads: work.reads,
            };
            256 + a.fault.fsc as u64
        }
        Exception::InsnAbort(a) => {
            ans.reads = work.reads;
            256 + a.fault.fsc as u64
        }
        Exception::Undefined => 65,
        Exception::Svc(_) => 65,
        Exception::Hvc(_) => 65,
        Exception::Smc(_) => 65,
        Exception::Brk(_) => 65,
        Exception::PcAlignment => 65,
    }
}

#[inline]
fn stopped(stop: Stop, work: Work, ans: &mut Report) -> u64 {
    match stop {
        Stop::Exception(e) => put_answer(e, work, ans),
        Stop::Unimplemented => 66,
    }
}

/// The number of a store's answer: 0, 65, 66, or 256 plus a fault's status; in `ans` the address of its data abort, and
/// how many descriptors were read. Nothing of `ans` is written with 65 and 66.
#[inline]
pub fn stored(answer: Result<(), Stop>, work: Work, ans: &mut Report) -> u64 {
    match answer {
        Ok(()) => {
            ans.reads = work.reads;
            0
        }
        Err(stop) => stopped(stop, work, ans),
    }
}

/// The number of a reply: 0, that of the check that was missed, 65, 66, or 256 plus a fault's status; in `ans` its
/// value, or the address of its data abort, and how many descriptors were read. With a number from 1 to 255 nothing of
/// `ans` is written.
#[inline]
pub fn answer(reply: Reply, work: Work, ans: &mut Report) -> u64 {
    match reply {
        Reply::Refused(n) => n as u64,
        Reply::Done => {
            ans.reads = work.reads;
            0
        }
        Reply::Value(v) => {
            *ans = Report {
                value: v,
                reads: work.reads,
            };
            0
        }
        Reply::Faults => {
            ans.reads = work.reads;
            256
        }
        Reply::Fault { addr: _, fault } => {
            ans.reads = work.reads;
            256 + fault.fsc as u64
        }
        Reply::Stopped(stop) => stopped(stop, work, ans),
    }
}

#[inline]
fn exception_words(e: Exception) -> [u64; 4] {
    match e {
        Exception::DataAbort(a) => {
            let w = bits::flag_word(a.write);
            [9, a.addr, a.fault.fsc as u64, w]
        }
        Exception::InsnAbort(a) => [10, a.addr, a.fault.fsc as u64, 0],
        Exception::Undefined => [6, 0, 0, 0],
        Exception::Svc(_) => [6, 0, 0, 0],
        Exception::Hvc(_) => [6, 0, 0, 0],
        Exception::Smc(_) => [6, 0, 0, 0],
        Exception::Brk(_) => [6, 0, 0, 0],
        Exception::PcAlignment => [6, 0, 0, 0],
    }
}

#[inline]
fn stop_words(stop: Stop) -> [u64; 4] {
    match stop {
        Stop::Exception(e) => exception_words(e),
        Stop::Unimplemented => [7, 0, 0, 0],
    }
}

/// The four words of a reply: what it is, then what it holds (a value, an address, a status, 1 for a write).
#[inline]
pub fn words(reply: Reply) -> [u64; 4] {
    match reply {
        Reply::Refused(n) => [5, n as u64, 0, 0],
        Reply::Done => [0, 0, 0, 0],
        Reply::Value(v) => [1, v, 0, 0],
        Reply::Faults => [2, 0, 0, 0],
        Reply::Fault { addr, fault } => [8, addr, fault.fsc as u64, 0],
        Reply::Stopped(stop) => stop_words(stop),
    }
}

/// The four words, and then how many descriptors were read: 0 where nothing of a report is written.
#[inline]
pub fn step_words(reply: Reply, work: Work) -> [u64; 5] {
    let mut report = Report { value: 0, reads: 0 };
    answer(reply, work, &mut report);
    let [kind, a, b, c] = words(reply);
    [kind, a, b, c, report.reads]
}
