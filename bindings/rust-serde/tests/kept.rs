//! Cores through serde and back: by bincode, and by serde's own sequences.
use a72::{Access, Broadcast, Core, Ram, SystemOperation, WORDS, place, registers};
use a72_serde::Kept;
use serde::de::value::{Error, SeqDeserializer};
use serde::{Deserialize, Serialize};

#[derive(Serialize, Deserialize)]
struct Machine {
    #[serde(with = "a72_serde")]
    first: Core,
    others: Vec<Kept>,
    #[serde(with = "a72_serde::boxed")]
    last: Box<Core>,
}

/// A core with an entry, hints, counters and a TLBI that is pending.
fn busy() -> Core {
    let mut bytes = vec![0; 0x1_0000];
    let mut ram = Ram::new(0x4000_0000, &mut bytes);
    ram.write_u64(0x4000_1000, 0x4000_0000 | 0x401); // level 1, entry 0: a block of 1 GiB
    let mut core = Core::new();
    core.write_register(registers::TCR_EL1, 25 | 2 << 30).unwrap();
    core.write_register(registers::TTBR0_EL1, 0x4000_1000).unwrap();
    core.write_register(registers::SCTLR_EL1, 1).unwrap();
    core.set_level(1).unwrap();
    core.set_general(1, 0x1234).unwrap();
    core.system(&mut ram, SystemOperation::tlbi_vae1is(1)).unwrap();
    for access in [Access::Read, Access::Write, Access::Fetch] {
        core.translate(&ram, 0x5123, access).unwrap();
    }
    core
}

fn of(words: impl IntoIterator<Item = u64>) -> Result<Core, Error> {
    let all: Vec<u64> = words.into_iter().collect();
    let sequence = || SeqDeserializer::<_, Error>::new(all.iter().copied());
    let core = a72_serde::deserialize(sequence());
    let boxed = a72_serde::boxed::deserialize(sequence());
    assert!(core == boxed.map(|core| *core));
    core
}

#[test]
fn a_machine_comes_back_as_it_was() {
    let machine = Machine {
        first: busy(),
        others: vec![Kept::default(), Kept(busy())],
        last: Box::new(busy()),
    };
    let bytes = bincode::serialize(&machine).unwrap();
    // The number of words, and the words, of each core.
    assert_eq!(bytes.len(), 8 + 4 * 8 * (WORDS + 1));
    let again: Machine = bincode::deserialize(&bytes).unwrap();
    assert!(again.first == machine.first && again.others == machine.others && again.last == machine.last);
    assert_eq!(again.first.broadcast(), Some(Broadcast::Page(0x1234)));
    assert_ne!(again.others[0], again.others[1]);
}

#[test]
fn as_many_words_as_a_core_has() {
    let core = busy();
    let words = || (0..WORDS).map(|place| core.word(place));
    assert!(of(words()).unwrap() == core);
    let short = of(words().take(WORDS - 1)).unwrap_err().to_string();
    assert_eq!(short, "invalid length 5212, expected the 5213 words of a core");
    let long = of(words().chain([0])).unwrap_err().to_string();
    assert_eq!(long, "more than the 5213 words of a core");
}

#[test]
fn any_words_are_a_core() {
    let core = of((0..WORDS as u64).map(|n| n.wrapping_mul(0x9E37_79B9_7F4A_7C15))).unwrap();
    let again = of((0..WORDS).map(|place| core.word(place))).unwrap();
    assert!(core == again);
    assert_eq!(
        again.pc(),
        0x9E37_79B9_7F4A_7C15u64.wrapping_mul(place::PC as u64)
    );
}
