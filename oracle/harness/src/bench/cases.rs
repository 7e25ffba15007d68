//! The cases, in the order of the table.
use super::scene::{same_entry, same_hint, Scene, LOCAL, NOTHING, PAGE};
use super::{Case, Lists, Work};
use crate::count::MOST_PAGES;
use a72::Rate;
use pimu::aarch64::sysreg::key;

const HINT: f64 = 1.05;
const ENTRY: f64 = 1.1;
const WALK: f64 = 1.05;
const OFF: f64 = 1.15;
const ACCESS_ENTRY: f64 = 1.15;
const SPLIT: f64 = 1.2;
const UPKEEP: f64 = 1.2;
const FETCH_PA: f64 = 1.5;
const ZEROING: f64 = 1.0;
const EXCEPTION: f64 = 1.6;
const CENSUS: f64 = 0.95;
const FRAMES: f64 = 1.0;
const WINDOWS: f64 = 1.1;
const FLIP: f64 = 1.1;
const FOUR_HINT: f64 = 1.1;
const LENT_HINT: f64 = 1.3;
const LENT_ENTRY: f64 = 1.2;
const LENT_WALK: f64 = 0.95;

/// The plain core's: translations, accesses and TLBI as fast as the Rust's; settings, abort entry and DC ZVA nearly so.
fn plain_bar(work: Work) -> Option<f64> {
    match work {
        Work::System([0, 7, ..]) | Work::Census(_) => None,
        Work::System([0, 8, ..]) => Some(1.0),
        Work::System(_) | Work::Register(_) | Work::Level | Work::Mark => Some(1.2),
        Work::General(_) | Work::DataAbort | Work::Svc => Some(1.2),
        Work::Windows(Lists::Sixteen) => None,
        Work::Windows(_) => Some(WINDOWS),
        Work::Flip(..) => Some(FLIP),
        _ => Some(1.0),
    }
}

const READ: Work = Work::Translate(1);
const WRITE: Work = Work::Translate(2);
const FETCH: Work = Work::Translate(4);

/// The page's first address.
fn page(p: u64) -> u64 {
    p << 12
}

fn case(name: &'static str, bar: impl Into<Option<f64>>, work: Work, args: [u64; 2], scene: Scene) -> Case {
    Case {
        name,
        bar: bar.into(),
        plain: plain_bar(work),
        work,
        args,
        scene,
        four: false,
    }
}

/// Of one of four cores: a call by a hint, and what the other three carry out. Each is named as the case of one core that it
/// is held to (`oracle/four.awk`).
fn four() -> Vec<Case> {
    let here = [page(PAGE), page(PAGE) | 8];
    let inside = [page(PAGE) | 0x100, page(PAGE) | 0x108];
    // TLBI VMALLE1IS, VAE1IS.
    let [all, va] = [0, 1].map(|op2| [0, 8, 3, op2]);
    let full = Scene {
        full: true,
        x: [PAGE, PAGE + 1],
        ..scene()
    };
    let four = |name, bar: f64, work, args, scene| Case {
        four: true,
        ..case(name, bar, work, args, scene)
    };
    let tlbi = |name, fields| four(name, UPKEEP, Work::System(fields), [0, 1], full.clone());
    vec![
        four("four cores, translate: hint hit, read", FOUR_HINT, READ, here, scene()),
        four("four cores, load 8: hint hit", FOUR_HINT, Work::Load(8), inside, scene()),
        four("four cores, store 8: hint hit", FOUR_HINT, Work::Store(8), inside, scene()),
        four("four cores, fetch: fetch hint hit", FOUR_HINT, Work::Fetch, here, scene()),
        tlbi("four cores, TLBI Page, 1,024 live entries", va),
        tlbi("four cores, TLBI All", all),
    ]
}

fn scene() -> Scene {
    Scene::default()
}

fn walk(levels: usize) -> Scene {
    Scene { levels, ..scene() }
}

/// The first page by its hint, inside RAM; the walk of the second ends without a page.
fn second_page_faults() -> Vec<Case> {
    let across = [page(PAGE) | 0xFFC, page(PAGE) | 0xFF9];
    let hole = Scene {
        hole: Some(PAGE + 1),
        ..scene()
    };
    let case = case(
        "load 8: split, second page faults",
        None,
        Work::Load(8),
        across,
        hole,
    );
    // pimu judges no byte of the first page there.
    vec![Case { plain: None, ..case }]
}

/// Translations again, under the bars of a core that was lent by reference inside the library.
fn lent() -> Vec<Case> {
    let here = [page(PAGE), page(PAGE) | 8];
    let (hints, entries) = ([page(PAGE), page(same_hint())], [page(PAGE), page(same_entry())]);
    vec![
        case("lent: hint hit", LENT_HINT, READ, here, scene()),
        case("lent: entry hit, read", LENT_ENTRY, READ, hints, scene()),
        case("lent: entry hit, fetch", LENT_ENTRY, FETCH, here, scene()),
        case("lent: walk of 2 levels", LENT_WALK, READ, entries, walk(2)),
        case("lent: walk of 3 levels", LENT_WALK, READ, entries, walk(3)),
        case("lent: walk of 4 levels", LENT_WALK, READ, entries, walk(4)),
    ]
}

/// A total of hours, and the largest.
fn frames() -> Vec<Case> {
    let frames = |name, rate| {
        let totals = [0x1234_5678_9ABC, u64::MAX];
        case(name, FRAMES, Work::Frames(rate), totals, scene())
    };
    vec![
        frames("frames at 48,000 a second", Rate::Hz48000),
        frames("frames at 44,100 a second", Rate::Hz44100),
    ]
}

fn windows() -> Vec<Case> {
    let windows = |name, bar: Option<f64>, lists| {
        let wide = Scene { wide: true, ..scene() };
        case(name, bar, Work::Windows(lists), [0, 1], wide)
    };
    let bar = Some(WINDOWS);
    vec![
        windows("windows: 64 of 16 pages, all apart", bar, Lists::Apart),
        windows("windows: 64 of 16 pages, the first meets", bar, Lists::Meeting),
        windows("windows: 16 of one page, all apart", None, Lists::Sixteen),
    ]
}

/// A zero descriptor at level 0, of which 64 bits are tried; bit 0 of the first of three.
fn flips() -> Vec<Case> {
    let here = [page(PAGE), page(PAGE) | 8];
    let flip = |name, scene| case(name, FLIP, Work::Flip(1, false), here, scene);
    let empty = Scene {
        empty: true,
        ..walk(4)
    };
    vec![
        flip("flip: none, 64 bits tried", empty),
        flip("flip: bit 0 of the first of 3 descriptors", scene()),
    ]
}

pub fn cases() -> Vec<Case> {
    [
        translations(),
        accesses(),
        fetches(),
        upkeep(),
        settings(),
        censuses(),
        lent(),
        second_page_faults(),
        frames(),
        windows(),
        flips(),
        four(),
    ]
    .into_iter()
    .flatten()
    .collect()
}

fn translations() -> Vec<Case> {
    let here = [page(PAGE), page(PAGE) | 8];
    // Each takes the other's hint, or its hint and its entry.
    let (hints, entries) = ([page(PAGE), page(same_hint())], [page(PAGE), page(same_entry())]);
    let user = Scene { level: 0, ..scene() };
    let unmapped = Scene {
        leaf: NOTHING,
        ..scene()
    };
    let off = Scene { on: false, ..scene() };
    vec![
        case("translate: hint hit, read", HINT, READ, here, scene()),
        case("translate: hint hit, write", HINT, WRITE, here, scene()),
        case("translate: entry hit, read", ENTRY, READ, hints, scene()),
        case("translate: entry hit, fetch", ENTRY, FETCH, here, scene()),
        case("translate: walk of 2 levels", WALK, READ, entries, walk(2)),
        case("translate: walk of 3 levels", WALK, READ, entries, walk(3)),
        case("translate: walk of 4 levels", WALK, READ, entries, walk(4)),
        case(
            "translate: walk of 3 levels, fetch",
            WALK,
            FETCH,
            entries,
            walk(3),
        ),
        case(
            "translate: permission fault, entry",
            WALK,
            READ,
            here,
            user.clone(),
        ),
        case("translate: permission fault, walk", WALK, READ, entries, user),
        case(
            "translate: translation fault, 3 levels",
            WALK,
            READ,
            here,
            unmapped,
        ),
        case("translate: stage 1 off", OFF, READ, hints, off),
        case("data_pa: hint hit", HINT, Work::DataPa, here, scene()),
        case("data_pa: entry hit", ENTRY, Work::DataPa, hints, scene()),
    ]
}

fn accesses() -> Vec<Case> {
    let here = [page(PAGE) | 0x100, page(PAGE) | 0x108];
    let hints = here.map(|va| va ^ if va & 8 == 0 { 0 } else { page(PAGE ^ same_hint()) });
    let entries = here.map(|va| va ^ if va & 8 == 0 { 0 } else { page(PAGE ^ same_entry()) });
    let user = Scene { level: 0, ..scene() };
    // Across the end of the page: by half, and by all but one byte.
    let across = [page(PAGE) | 0xFFC, page(PAGE) | 0xFF9];
    let ends = [page(PAGE) | 0xFFF; 2];
    let load = |name, size| case(name, HINT, Work::Load(size), here, scene());
    let store = |name, size| case(name, HINT, Work::Store(size), here, scene());
    let split = |name, work, at| case(name, SPLIT, work, at, scene());
    vec![
        load("load 1: hint hit", 1),
        load("load 2: hint hit", 2),
        load("load 4: hint hit", 4),
        load("load 8: hint hit", 8),
        store("store 1: hint hit", 1),
        store("store 2: hint hit", 2),
        store("store 4: hint hit", 4),
        store("store 8: hint hit", 8),
        case("load 8: entry hit", ACCESS_ENTRY, Work::Load(8), hints, scene()),
        case("store 8: entry hit", ACCESS_ENTRY, Work::Store(8), hints, scene()),
        case("load 8: walk of 3 levels", None, Work::Load(8), entries, scene()),
        case(
            "store 8: walk of 3 levels",
            None,
            Work::Store(8),
            entries,
            scene(),
        ),
        case(
            "load 8: permission fault",
            None,
            Work::Load(8),
            here,
            user.clone(),
        ),
        case("store 8: permission fault", None, Work::Store(8), here, user),
        split("load 2: split", Work::Load(2), ends),
        split("load 8: split", Work::Load(8), across),
        split("store 2: split", Work::Store(2), ends),
        split("store 8: split", Work::Store(8), across),
    ]
}

fn fetches() -> Vec<Case> {
    let here = [page(PAGE), page(PAGE) | 8];
    let there = [page(PAGE), page(PAGE + 1)];
    let entries = [page(PAGE), page(same_entry())];
    vec![
        case("fetch: fetch hint hit", HINT, Work::Fetch, here, scene()),
        case("fetch: entry hit", ACCESS_ENTRY, Work::Fetch, there, scene()),
        case("fetch: walk of 3 levels", None, Work::Fetch, entries, scene()),
        case("fetch_pa: fetch hint hit", FETCH_PA, Work::FetchPa, here, scene()),
        case("fetch_pa: entry hit", ENTRY, Work::FetchPa, there, scene()),
    ]
}

fn upkeep() -> Vec<Case> {
    // TLBI VMALLE1, VAE1, ASIDE1, and VAE1IS, which other cores see too.
    let [all, va, asid, shared] = [[7, 0], [7, 1], [7, 2], [3, 1]].map(|[crm, op2]| [0, 8, crm, op2]);
    let full = |x| Scene {
        full: true,
        x,
        ..scene()
    };
    let local = |x| Scene {
        leaf: LOCAL,
        ..full(x)
    };
    let pages = [PAGE, PAGE + 1];
    let asids = [0, 5 << 48];
    let (tcr, ttbr0) = (key(3, 0, 2, 0, 2), key(3, 0, 2, 0, 0));
    let (sctlr, vbar) = (key(3, 0, 1, 0, 0), key(3, 0, 12, 0, 0));
    let shapes = [25 | 2 << 30 | 5 << 32, 24 | 2 << 30 | 5 << 32];
    let tlbi = |name, fields, scene| case(name, UPKEEP, Work::System(fields), [0, 1], scene);
    let reg = |name, key, values| case(name, UPKEEP, Work::Register(key), values, full([0, 0]));
    let sys = |name, bar: Option<f64>, fields, scene| case(name, bar, Work::System(fields), [0, 1], scene);
    vec![
        tlbi("TLBI All", all, full(pages)),
        tlbi("TLBI Page, 1,024 live entries", va, full(pages)),
        tlbi("TLBI Page, broadcast", shared, full(pages)),
        tlbi("TLBI Asid, 1,024 entries of it", asid, local([0, 0])),
        tlbi("TLBI Asid, of it and of another", asid, local(asids)),
        reg("register write: shape changes", tcr, shapes),
        reg("register write: ASID changes", ttbr0, [7 << 48, 9 << 48]),
        reg("register write: neither", vbar, [0x800, 0x1000]),
        reg("register write: same SCTLR", sctlr, [1, 1]),
        sys("AT S1E1R: walk of 3 levels", None, [0, 7, 8, 0], scene()),
        sys("AT S1E0R: permission fault", None, [0, 7, 8, 2], scene()),
        sys("DC ZVA: hint hit", Some(ZEROING), [3, 7, 4, 1], scene()),
    ]
}

fn settings() -> Vec<Case> {
    let addresses = [page(PAGE), page(PAGE + 1)];
    vec![
        case(
            "abort entry: data abort",
            EXCEPTION,
            Work::DataAbort,
            addresses,
            scene(),
        ),
        case("abort entry: SVC", EXCEPTION, Work::Svc, [1, 2], scene()),
        case("level", UPKEEP, Work::Level, [0, 1], scene()),
        case("mark", UPKEEP, Work::Mark, [0, 1], scene()),
        case("general register", UPKEEP, Work::General(7), addresses, scene()),
    ]
}

/// Of 65,536 pages; a time is that of one.
fn censuses() -> Vec<Case> {
    let census = |name, scene| {
        let starts = [page(PAGE), page(PAGE) | 8];
        case(name, CENSUS, Work::Census(MOST_PAGES), starts, scene)
    };
    let unmapped = Scene {
        leaf: NOTHING,
        ..scene()
    };
    vec![
        census("census, a page: 4 KiB pages, 3 levels", scene()),
        census("census, a page: 2 MiB blocks, 2 levels", walk(2)),
        census("census, a page: not mapped, 3 levels", unmapped),
    ]
}
