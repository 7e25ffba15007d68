//! Lists of voice windows: their bytes, how a trace's lines bring these, and what they come to.
//!
//! A list is little-endian: a count of two bytes, so many first addresses of eight bytes, so many lengths in pages of two.

/// The most windows of a list.
pub const MOST: usize = 64;
/// The most pages of a window.
pub const PAGES: usize = 16;

/// A window of a list: its first address and its pages.
#[derive(Clone, Copy, Debug, Default, PartialEq, Eq)]
pub struct Window {
    pub start: u64,
    pub pages: u16,
}

impl Window {
    /// The address of its last page.
    pub fn last(&self) -> u64 {
        self.start + 4096 * (u64::from(self.pages) - 1)
    }
}

/// The bytes of a list of these windows, right or not.
pub fn encode(windows: &[Window]) -> Vec<u8> {
    let count = (windows.len() as u16).to_le_bytes();
    let starts = windows.iter().flat_map(|w| w.start.to_le_bytes());
    let lengths = windows.iter().flat_map(|w| w.pages.to_le_bytes());
    count.into_iter().chain(starts).chain(lengths).collect()
}

/// The windows of a right list.
#[derive(Clone, Debug)]
pub struct List {
    count: usize,
    windows: [Window; MOST],
}

impl List {
    /// `None` where it is a list of refusal 9: too many windows, bytes too few or too many, a window that is none.
    #[inline(always)]
    pub fn read(bytes: &[u8]) -> Option<List> {
        let (count, rest) = bytes.split_first_chunk()?;
        let count = usize::from(u16::from_le_bytes(*count));
        if count > MOST || rest.len() != 10 * count {
            return None;
        }
        let (starts, lengths) = rest.split_at(8 * count);
        let mut windows = [Window::default(); MOST];
        for ((w, start), pages) in windows
            .iter_mut()
            .zip(starts.chunks_exact(8))
            .zip(lengths.chunks_exact(2))
        {
            w.start = u64::from_le_bytes(start.try_into().ok()?);
            w.pages = u16::from_le_bytes(pages.try_into().ok()?);
            if !is_window(w) {
                return None;
            }
        }
        Some(List { count, windows })
    }

    #[inline(always)]
    pub fn windows(&self) -> &[Window] {
        &self.windows[..self.count]
    }
}

/// It begins at a page, has 1 to 16 of them, and does not pass 2^64, where it may end.
#[inline(always)]
fn is_window(w: &Window) -> bool {
    let pages = u64::from(w.pages);
    w.start & 0xFFF == 0 && (1..=PAGES as u64).contains(&pages) && pages <= (1 << 52) - (w.start >> 12)
}

/// The first page that faults, by window and then page, and the status.
#[derive(Clone, Copy, Debug, PartialEq, Eq)]
pub struct PageFault {
    pub window: usize,
    pub page: usize,
    pub status: u8,
}

/// What a right list comes to: its first two windows that share a physical page.
pub type Found = Result<Option<(usize, usize)>, PageFault>;

/// Bytes of a list as one line brings them, at most 48.
#[derive(Clone, Copy, Debug, PartialEq, Eq)]
pub struct Piece {
    len: u8,
    bytes: [u8; Piece::MOST],
}

impl Piece {
    pub const MOST: usize = 48;

    fn of(bytes: &[u8]) -> Piece {
        let mut piece = Piece {
            len: bytes.len() as u8,
            bytes: [0; Piece::MOST],
        };
        piece.bytes[..bytes.len()].copy_from_slice(bytes);
        piece
    }

    /// As many as it takes.
    pub fn all(bytes: &[u8]) -> impl Iterator<Item = Piece> + '_ {
        bytes.chunks(Piece::MOST).map(Piece::of)
    }

    pub fn bytes(&self) -> &[u8] {
        &self.bytes[..usize::from(self.len)]
    }

    /// How many there are, and then they, in words.
    pub fn words(&self) -> Vec<u64> {
        let words = self
            .bytes
            .chunks_exact(8)
            .map(|w| u64::from_le_bytes(w.try_into().expect("eight bytes")));
        std::iter::once(u64::from(self.len)).chain(words).collect()
    }

    /// `None` where there are more than words for them.
    pub fn of_words(len: u64, words: &[u64]) -> Option<Piece> {
        let bytes: Vec<u8> = words.iter().flat_map(|w| w.to_le_bytes()).collect();
        bytes.get(..usize::try_from(len).ok()?).map(Piece::of)
    }
}

#[cfg(test)]
mod tests {
    use super::*;

    fn window(start: u64, pages: u16) -> Window {
        Window { start, pages }
    }

    fn is_right(windows: &[Window]) -> bool {
        List::read(&encode(windows)).is_some_and(|list| list.windows() == windows)
    }

    #[test]
    fn right_lists() {
        assert!(is_right(&[]));
        assert!(is_right(&[
            window(0, 1),
            window(0xFFFF_FFFF_FFFF_0000, 16),
            window(1 << 55, 7)
        ]));
        assert!(is_right(&[window(0xFFFF_FFFF_FFFF_F000, 1); 64]));
        // First all starts, then all lengths.
        let bytes = [
            &[2u8, 0][..],
            &[0, 0x10],
            &[0; 6],
            &[0, 0x20],
            &[0; 6],
            &[3, 0, 4, 0],
        ]
        .concat();
        assert_eq!(encode(&[window(0x1000, 3), window(0x2000, 4)]), bytes);
    }

    #[test]
    fn each_malformation() {
        assert!(!is_right(&[window(0, 1); 65]));
        for bad in [
            window(1, 1),
            window(0x800, 1),
            window(0, 0),
            window(0, 17),
            window(0, 0x101),
        ] {
            assert!(
                !is_right(&[bad]) && !is_right(&[window(0, 1), bad, window(0, 1)]),
                "{bad:?}"
            );
        }
        assert!(
            !is_right(&[window(0xFFFF_FFFF_FFFF_F000, 2)]) && !is_right(&[window(0xFFFF_FFFF_FFFF_1000, 16)])
        );
        let right = encode(&[window(0, 1); 3]);
        for n in 0..right.len() {
            assert!(List::read(&right[..n]).is_none(), "{n}");
        }
        assert!(List::read(&[&right[..], &[0]].concat()).is_none());
    }

    #[test]
    fn pieces_come_back() {
        let bytes: Vec<u8> = (0..131).collect();
        let pieces: Vec<Piece> = Piece::all(&bytes).collect();
        assert_eq!(
            pieces.iter().map(|p| p.bytes().len()).collect::<Vec<_>>(),
            [48, 48, 35]
        );
        assert_eq!(
            pieces.iter().flat_map(Piece::bytes).copied().collect::<Vec<u8>>(),
            bytes
        );
        for piece in pieces {
            let words = piece.words();
            assert_eq!(Piece::of_words(words[0], &words[1..]), Some(piece));
        }
        assert_eq!(Piece::of_words(49, &[0; 6]), None);
    }
}
