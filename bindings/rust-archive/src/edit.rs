//! The words of a core while they are changed.
use crate::core::Core;
use plain::place::State;
use std::ops::{Deref, DerefMut};

/// The words of a core, to be changed ([`Core::words_mut`]): the core becomes the one that they hold when this is
/// dropped.
pub struct Edit<'a> {
    core: &'a mut Core,
    words: Box<State>,
}

impl Edit<'_> {
    pub(crate) fn new(core: &mut Core) -> Edit<'_> {
        let words = core.words();
        Edit { core, words }
    }
}

impl Deref for Edit<'_> {
    type Target = State;

    fn deref(&self) -> &State {
        &self.words
    }
}

impl DerefMut for Edit<'_> {
    fn deref_mut(&mut self) -> &mut State {
        &mut self.words
    }
}

impl Drop for Edit<'_> {
    fn drop(&mut self) {
        self.core.restore(&self.words);
    }
}
