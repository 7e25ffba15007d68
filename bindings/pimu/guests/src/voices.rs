//! The instrument: sixteen voices, a page each, note-on and note-off, on one core and on two.
use crate::encode::*;
use crate::scene::*;
use std::collections::{BTreeMap, VecDeque};

const VOICES: usize = 16;

/// Where a voice's oscillator page lies: voices 0 and 8, 1 and 9 .. share a slot of the TLB.
fn page(voice: usize) -> u64 {
    0x10_0000 + (voice as u64 % 8) * 0x1000 + (voice as u64 / 8) * 0x40_0000
}

fn frame(n: usize) -> u64 {
    FRAMES + n as u64 * 0x1000
}

/// Key events: a voice, and its note, or its end.
fn song(rounds: usize) -> Vec<(usize, Option<u64>)> {
    let on = (0..VOICES).map(|v| (v, Some(40 + 3 * v as u64)));
    let mut events: Vec<_> = on.collect();
    for round in 0..rounds {
        for i in 0..VOICES {
            let v = (i * 5 + round * 3) % VOICES;
            events.extend([(v, None), (v, Some(100 + 20 * round as u64 + i as u64))]);
        }
    }
    events
}

/// Where each voice's descriptor lies, the tables, and which frame each note-on takes: the one that was free longest.
struct Instrument {
    scene: Scene,
    root: u64,
    descriptors: Vec<u64>,
    free: VecDeque<u64>,
    held: Vec<Option<(u64, u64)>>,
    /// The note that each frame holds, whether it is held or not.
    notes: BTreeMap<u64, u64>,
}

impl Instrument {
    fn new() -> Instrument {
        let mut scene = Scene::new();
        scene.vectors(1);
        let root = scene.root();
        let descriptors = (0..VOICES).map(|v| scene.descriptor(root, page(v), 3)).collect();
        Instrument {
            scene,
            root,
            descriptors,
            free: (0..VOICES + 2).map(frame).collect(),
            held: vec![None; VOICES],
            notes: BTreeMap::new(),
        }
    }

    /// The instructions of one key event. A TLBI follows a note-off, unless it is forgotten.
    fn event(&mut self, p: &mut Asm, (voice, note): (usize, Option<u64>), invalidate: Option<[u32; 4]>) {
        match note {
            Some(note) => {
                let frame = self.free.pop_front().expect("a free frame");
                store(p, frame, note);
                store(p, self.descriptors[voice], frame | PAGE | PXN | UXN);
                p.put(&[DSB]);
                self.held[voice] = Some((frame, note));
                self.notes.insert(frame, note);
            }
            None => {
                store(p, self.descriptors[voice], 0);
                if let Some((frame, _)) = self.held[voice].take() {
                    self.free.push_back(frame);
                }
                if let Some(operation) = invalidate {
                    tlbi(p, operation, page(voice) >> 12);
                }
            }
        }
    }
}

/// One core plays and hears every held voice after each event. Without the TLBI a voice is heard as its page last was.
fn one(name: &'static str, rounds: usize, invalidate: Option<[u32; 4]>) -> Guest {
    let mut i = Instrument::new();
    let mut p = Asm::new(CODE);
    boot(&mut p, i.root);
    p.li(26, RESULTS);
    let mut heard = 0;
    // Where no TLBI is made the hint of a page stays for ever, so a voice is heard from the first frame that it had.
    let mut first = [None; VOICES];
    for event in song(rounds) {
        i.event(&mut p, event, invalidate);
        // The sum of what is heard, in which a wrong tone shows.
        p.li(4, 0);
        let mut sum = 0u64;
        for (voice, first) in first.iter_mut().enumerate() {
            let Some((frame, note)) = i.held[voice] else {
                continue;
            };
            p.li(0, page(voice))
                .put(&[ldr(1, 0, 0), lsl(4, 4, 3), of_two(0xCA, 4, 4, 1)]);
            let stale = *first.get_or_insert(frame);
            sum = sum << 3
                ^ if invalidate.is_some() {
                    note
                } else {
                    i.notes[&stale]
                };
        }
        heard = (heard * 31) ^ sum;
        p.li(5, 31)
            .put(&[0x9B00_7C00 | 5 << 16 | 6 << 5 | 6, of_two(0xCA, 6, 6, 4)]); // MUL, EOR
    }
    tell(&mut p, 6);
    p.label("end").go("end");
    i.scene.guest(name, p, words(RESULTS, &[heard]))
}

/// Core 0 plays, core 1 hears: a number says which voice, and comes back when it was heard.
fn two(name: &'static str, rounds: usize) -> Guest {
    let mut i = Instrument::new();
    let (call, answer) = (BASE + 0x3000, BASE + 0x3040);
    let mut p = Asm::new(CODE);
    boot(&mut p, i.root);
    p.li(26, RESULTS);
    let (mut said, mut known) = (0, 0u64);
    for event in song(rounds) {
        i.event(&mut p, event, Some(TLBI_VAE1IS));
        let Some((_, note)) = i.held[event.0] else {
            continue;
        };
        said += 1;
        store(&mut p, call, page(event.0));
        p.li(0, answer).li(2, said);
        let wait = p.here();
        p.put(&[ldr(1, 0, 0), cmp(1, 2)]);
        p.put(&[0x5400_0001 | (((wait as i64 - p.here() as i64) / 4) as u32 & 0x7FFFF) << 5]);
        known = (known * 31) ^ note;
    }
    p.label("end").go("end");
    let mut l = Asm::new(CODE + 0xC000);
    boot(&mut l, i.root);
    l.li(26, RESULTS)
        .li(2, call)
        .li(3, answer)
        .li(5, 31)
        .li(6, 0)
        .li(7, 0);
    l.label("wait")
        .put(&[ldr(0, 2, 0)])
        .cbz(0, "wait")
        .put(&[str(31, 2, 0), ldr(1, 0, 0)]);
    l.put(&[
        0x9B00_7C00 | 5 << 16 | 6 << 5 | 6,
        of_two(0xCA, 6, 6, 1),
        str(6, 26, 0),
    ]);
    l.put(&[add_imm(7, 7, 1), DSB, str(7, 3, 0)]).go("wait");
    let listener = l.at;
    i.scene.code(l);
    let mut guest = i.scene.guest(name, p, words(RESULTS, &[known]));
    guest.starts.push(listener);
    guest
}

/// Two cores count together, by exclusives on a mapped page.
fn counted() -> Guest {
    let mut s = Scene::new();
    s.vectors(1);
    let root = s.root();
    s.map(root, 0x10_0000, FRAMES | PAGE);
    let program = |at| {
        let mut p = Asm::new(at);
        boot(&mut p, root);
        p.li(0, 0x10_0000)
            .li(3, 40)
            .label("again")
            .put(&[ldxr(3, 1, 0), add_imm(1, 1, 1), stxr(3, 2, 1, 0)]);
        p.cbnz(2, "again").put(&[sub_imm(3, 3, 1)]).cbnz(3, "again");
        p.label("all")
            .put(&[ldr(1, 0, 0), sub_imm(1, 1, 80)])
            .cbnz(1, "all");
        p.label("end").go("end");
        p
    };
    let other = program(CODE + 0xC000);
    s.code(other);
    let mut guest = s.guest("two cores that count", program(CODE), vec![(FRAMES, 80)]);
    guest.starts.push(CODE + 0xC000);
    guest
}

pub fn all() -> Vec<Guest> {
    vec![
        one("sixteen voices", 3, Some(TLBI_VAE1)),
        one("sixteen voices, IS form", 3, Some(TLBI_VAE1IS)),
        two("sixteen voices on two cores", 4),
        counted(),
        forgetful(2),
    ]
}

/// A note-off that forgets its TLBI.
pub fn forgetful(rounds: usize) -> Guest {
    one("note-off without TLBI", rounds, None)
}
