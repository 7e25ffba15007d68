//! A list of windows by pimu's own functions: every page, then every pair by its definition.
use crate::windows::{Found, PageFault, Window, MOST, PAGES};
use pimu::aarch64::access::mmu;
use pimu::aarch64::{Cpu, Memory};

/// The permission bit of a privileged write.
const WRITE: u8 = 2 << 3;
/// The status of a permission fault, but for its level.
const PERMISSION: u8 = 0x0C;

/// The physical pages of each window.
type Frames = [[u64; PAGES]; MOST];

/// The physical page behind an address for a privileged write, with nothing cached. The error is the status.
#[inline(always)]
fn frame<M: Memory + ?Sized>(c: &Cpu, m: &mut M, regime: u8, va: u64) -> Result<u64, u8> {
    if !mmu::is_on(c, regime) {
        return Ok(va >> 12);
    }
    let leaf = mmu::walk_leaf(c, m, regime, mmu::untagged(c, regime, va))?;
    if leaf.perms & WRITE == 0 {
        return Err(PERMISSION | leaf.level);
    }
    Ok(leaf.oa >> 12)
}

/// All pages of all windows, up to the first that faults.
#[inline(always)]
fn fill<M: Memory + ?Sized>(
    c: &Cpu,
    m: &mut M,
    windows: &[Window],
    frames: &mut Frames,
) -> Result<(), PageFault> {
    let regime = c.el.max(1) as u8;
    for (window, (w, frames)) in windows.iter().zip(frames.iter_mut()).enumerate() {
        for (page, f) in frames[..usize::from(w.pages)].iter_mut().enumerate() {
            let va = w.start + 4096 * page as u64;
            *f = frame(c, m, regime, va).map_err(|status| PageFault { window, page, status })?;
        }
    }
    Ok(())
}

/// Whether two windows have a page in common. It is looked for up to the second's end, as the proved text does.
#[inline(always)]
fn meet(a: &[u64], b: &[u64]) -> bool {
    let has = |f: &u64| b.iter().fold(false, |found, g| found | (f == g));
    a.iter().any(has)
}

/// What the windows of a right list come to.
#[inline(always)]
pub fn windows<M: Memory + ?Sized>(c: &Cpu, m: &mut M, windows: &[Window]) -> Found {
    let mut frames = [[0; PAGES]; MOST];
    fill(c, m, windows, &mut frames)?;
    let of = |i: usize| &frames[i][..usize::from(windows[i].pages)];
    for i in 0..windows.len() {
        for k in i + 1..windows.len() {
            if meet(of(i), of(k)) {
                return Ok(Some((i, k)));
            }
        }
    }
    Ok(None)
}
