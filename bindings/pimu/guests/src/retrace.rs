//! A recorded trace, carried out on a fresh core: it must end as the core that was recorded.
use crate::bus::Bus;
use crate::side::Side;
use a72::{registers::Key, Access, Core, Ram, SystemOperation};

/// Carries out a trace and compares: what each operation read of the tables, and at the end RAM, live entries, hints,
/// hits and walks.
pub fn check<S: Side>(path: &str, recorded: &S, bus: &Bus) -> Result<usize, String> {
    let text = std::fs::read_to_string(path).map_err(|e| format!("{path}: {e}"))?;
    let (mut core, mut base, mut bytes) = (Core::new(), 0, Vec::new());
    for (n, line) in (1..).zip(text.lines()) {
        let (line, reads) = match line.split_once(" #=; rd=") {
            Some((line, reads)) => (line, Some(reads)),
            None => (line, None),
        };
        let words: Vec<&str> = line.split(' ').collect();
        let number = |i: usize| u64::from_str_radix(words[i], 16).map_err(|e| format!("{path}:{n}: {e}"));
        let ram = &mut Ram::new(base, &mut bytes);
        // An answer is the guest's affair: a fault is as good as a value.
        match words[0] {
            "window" => (base, bytes) = (number(1)?, vec![0; number(2)? as usize]),
            "load" => bytes = std::fs::read(words[1]).map_err(|e| format!("{}: {e}", words[1]))?,
            "if" => drop(core.fetch(ram, number(1)?)),
            "dpa" => drop(core.translate(ram, number(1)?, Access::Read)),
            "ld" => drop(core.load_bytes(ram, number(1)?, number(2)?)),
            "st" => drop(core.store_bytes(ram, number(1)?, number(2)?, number(3)?)),
            "poke" => drop(ram.write_u64(number(1)?, number(2)?)),
            "level" => core
                .set_level(number(1)?)
                .map_err(|e| format!("{path}:{n}: {e}"))?,
            "mark" => core
                .set_unprivileged(number(1)? == 1)
                .map_err(|e| format!("{path}:{n}: {e}"))?,
            "x" => core
                .set_general(number(1)?, number(2)?)
                .map_err(|e| format!("{path}:{n}: {e}"))?,
            "reg" => core
                .write_register(Key::from(number(1)?), number(2)?)
                .map_err(|e| format!("{path}:{n}: {e}"))?,
            "sys" => {
                let operation =
                    SystemOperation::new(number(1)?, number(2)?, number(3)?, number(4)?, number(5)?);
                core.system(ram, operation)
                    .map_err(|e| format!("{path}:{n}: {e}"))?;
            }
            _ => return Err(format!("{path}:{n}: {line}")),
        }
        let read = format!("{:x}", core.report().reads);
        if reads.is_some_and(|reads| reads != read) {
            return Err(format!("{path}:{n}: {line} reads {read} descriptors"));
        }
    }
    if base == 0 {
        return Ok(0); // the core did nothing
    }
    if bytes != bus.ram {
        let at = bytes.iter().zip(&bus.ram).position(|(a, b)| a != b);
        return Err(format!(
            "{path}: RAM differs at {:x}",
            bus.base + at.unwrap_or(0) as u64
        ));
    }
    let counts = recorded.counts();
    let own = core.counters();
    if (own.hits(), own.walks()) != (counts.hits, counts.walks) {
        return Err(format!("{path}: {own:?}, in the run {counts:?}"));
    }
    let hint = |slot| core.hint(slot).map(|h| (h.key, h.pa));
    let live = |slot| {
        Some(core.entry(slot))
            .filter(|e| core.is_live(e))
            .map(|e| (e.tag, e.pa, e.rights.0, e.asid))
    };
    let of_run = |slot| recorded.live(slot).map(|e| (e.tag, e.pa, e.perms, e.asid));
    let differs = (0..512).any(|slot| hint(slot) != recorded.hint(slot))
        || (0..1024).any(|slot| live(slot) != of_run(slot));
    match recorded.settled() && differs {
        true => Err(format!("{path}: entries or hints differ")),
        false => Ok(text.lines().count()),
    }
}
