//! A core's words in boxes, with the feature `alloc`.
use crate::core::Core;
use crate::place::{State, WORDS};
use alloc::boxed::Box;
use alloc::vec;
use core::ops::{Deref, DerefMut};

impl Core {
    /// The core of these words, as [`Self::words`] gave them, or any others.
    pub fn from_words(words: Box<State>) -> Core {
        let mut core = Core::new();
        core.restore(&words);
        core
    }

    /// All that the core holds, saved as words. [`crate::place`] has the layout.
    pub fn words(&self) -> Box<State> {
        let mut words: Box<State> = vec![0; WORDS].try_into().expect("as many words as a core has");
        self.save(&mut words);
        words
    }

    /// The words, to be changed: the core becomes the one that they hold when what this gives is dropped. That the
    /// cache holds only what the tables said is then the caller's affair.
    pub fn words_mut(&mut self) -> Edit<'_> {
        let words = self.words();
        Edit { core: self, words }
    }

    /// The words alone.
    pub fn into_words(self) -> Box<State> {
        self.words()
    }
}

/// The words of a core, to be changed ([`Core::words_mut`]): the core becomes the one that they hold when this is
/// dropped.
#[derive(Debug)]
pub struct Edit<'a> {
    core: &'a mut Core,
    words: Box<State>,
}

impl Deref for Edit<'_> {
    type Target = State;

    fn deref(&self) -> &State {
        &self.words
    }
}

impl DerefMut for Edit<'_> {
    fn deref_mut(&mut self) -> &mut State {
        &mut self.words
    }
}

impl Drop for Edit<'_> {
    fn drop(&mut self) {
        self.core.restore(&self.words);
    }
}
