//! A state as the words of a saved core; [`crate::place`] has the layout.
use crate::place;
use crate::state::{Entry, LevelCounters, State};
use std::ops::Range;

/// The words of the data hints, two each, and of the entries, four each.
pub const HINT_WORDS: Range<usize> = place::HINTS..place::HINTS + 2 * 512;
pub const ENTRY_WORDS: Range<usize> = place::ENTRIES..place::ENTRIES + 4 * 1024;
/// Those of the levels' counters: four of hits, four of walks.
pub const LEVEL_WORDS: Range<usize> = place::LEVEL_HITS..place::LEVEL_WALKS + 4;

/// The words that hold nothing: no part of a [`State`].
pub const RETIRED: Range<usize> = 70..72;

/// Hits and walks of each exception level.
pub fn levels_of(w: &[u64]) -> [LevelCounters; 4] {
    std::array::from_fn(|level| LevelCounters {
        hits: w[place::LEVEL_HITS + level],
        walks: w[place::LEVEL_WALKS + level],
    })
}

fn entry_of(slot: usize, w: &[u64]) -> Entry {
    Entry {
        slot: slot as u16,
        tag: w[0],
        perms: w[2] as u8,
        level: (w[2] >> 8) as u8,
        global: w[2] >> 16 & 1 != 0,
        asid: (w[2] >> 32) as u16,
        pa: w[3],
    }
}

/// Permissions, level, global and ASID in one word.
pub fn entry_bits(e: &Entry) -> u64 {
    u64::from(e.perms) | u64::from(e.level) << 8 | u64::from(e.global) << 16 | u64::from(e.asid) << 32
}

/// A number too large for its place becomes the largest there is, so that a comparison shows it.
fn fit<T: TryFrom<u64>>(v: u64, largest: T) -> T {
    T::try_from(v).unwrap_or(largest)
}

pub fn state_of(w: &[u64]) -> State {
    let generation = fit(w[place::GENERATION], u32::MAX);
    let hints = w[HINT_WORDS].chunks(2).enumerate();
    let records = || w[ENTRY_WORDS].chunks(4).enumerate().filter(|(_, e)| e[0] != 0);
    let ahead = |e: &[u64]| e[1] > u64::from(generation) && e[1] <= u64::from(u32::MAX);
    let fetch = || {
        (
            w[place::FETCH_PAGE],
            fit(w[place::FETCH_LEVEL], u32::MAX),
            w[place::FETCH_PA],
        )
    };
    State {
        regs: w[..place::NZCV].try_into().unwrap(),
        flags: w[place::NZCV..place::GENERAL].try_into().unwrap(),
        x: w[place::GENERAL..place::LEVEL].try_into().unwrap(),
        level: fit(w[place::LEVEL], u32::MAX),
        mark: w[place::UNPRIVILEGED] == 1,
        levels: levels_of(w),
        flushes: w[place::FLUSHES],
        drops: w[place::DROPS],
        epoch: w[place::EPOCH],
        broadcast: (fit(w[place::PENDING], u8::MAX), w[place::PENDING_VALUE]),
        last_pa: w[place::LAST_PA],
        abort_pa: w[place::ABORT_PA],
        generation,
        cache_asid: fit(w[place::ASID], u16::MAX),
        fetch: (w[place::FETCH] == 1).then(fetch),
        hints: hints
            .filter(|(_, h)| h[0] != u64::MAX)
            .map(|(i, h)| (i as u16, h[0], h[1]))
            .collect(),
        entries: records()
            .filter(|(_, e)| e[1] == u64::from(generation))
            .map(|(i, e)| entry_of(i, e))
            .collect(),
        ahead: records()
            .filter(|(_, e)| ahead(e))
            .map(|(i, e)| (e[1] as u32, entry_of(i, e)))
            .collect(),
    }
}

pub fn words_of(s: &State) -> Vec<u64> {
    let mut w = vec![0; place::WORDS];
    w[..place::NZCV].copy_from_slice(&s.regs);
    w[place::NZCV..place::GENERAL].copy_from_slice(&s.flags);
    w[place::GENERAL..place::LEVEL].copy_from_slice(&s.x);
    let (page, level, pa) = s.fetch.unwrap_or((0, 0, 0));
    for (at, v) in [
        (place::LEVEL, s.level.into()),
        (place::UNPRIVILEGED, s.mark.into()),
        (place::FLUSHES, s.flushes),
        (place::DROPS, s.drops),
        (place::EPOCH, s.epoch),
        (place::PENDING, s.broadcast.0.into()),
        (place::PENDING_VALUE, s.broadcast.1),
        (place::LAST_PA, s.last_pa),
        (place::ABORT_PA, s.abort_pa),
        (place::GENERATION, s.generation.into()),
        (place::ASID, s.cache_asid.into()),
        (place::FETCH, s.fetch.is_some().into()),
        (place::FETCH_PAGE, page),
        (place::FETCH_LEVEL, level.into()),
        (place::FETCH_PA, pa),
    ] {
        w[at] = v;
    }
    for (level, counters) in s.levels.iter().enumerate() {
        w[place::LEVEL_HITS + level] = counters.hits;
        w[place::LEVEL_WALKS + level] = counters.walks;
    }
    for hint in w[HINT_WORDS].chunks_mut(2) {
        hint[0] = u64::MAX;
    }
    for (slot, key, pa) in &s.hints {
        let at = place::HINTS + 2 * usize::from(*slot);
        w[at..at + 2].copy_from_slice(&[*key, *pa]);
    }
    let live = s.entries.iter().map(|e| (s.generation, e));
    for (generation, e) in live.chain(s.ahead.iter().map(|(g, e)| (*g, e))) {
        let at = place::ENTRIES + 4 * usize::from(e.slot);
        w[at..at + 4].copy_from_slice(&[e.tag, generation.into(), entry_bits(e), e.pa]);
    }
    w
}
