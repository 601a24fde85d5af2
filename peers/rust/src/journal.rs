//! What an actor keeps of all that came to it.

use crate::actor::{Answer, Effect, Envelope};

#[derive(Clone, Copy)]
#[allow(dead_code)] // A restart forgets its cause, and nobody reads the journals.
pub enum SystemMessage {
    Failed { child: u32, error: u32 },
    Restart { error: u32 },
}

pub trait Journal: Send {
    /// Whether it keeps anything.
    const KEEPS: bool;
    fn new() -> Self;
    /// Makes room for one more entry, before anything changes.
    fn ready(&mut self);
    fn add_handled(&mut self, envelope: Envelope, status: u64, answer: Answer, effects: &[Effect]);
    fn add_system(&mut self, number: u64, message: SystemMessage);
    fn len(&self) -> usize;
}

pub struct NoJournal;

impl Journal for NoJournal {
    const KEEPS: bool = false;

    fn new() -> NoJournal {
        NoJournal
    }

    #[inline]
    fn ready(&mut self) {}

    #[inline]
    fn add_handled(&mut self, _: Envelope, _: u64, _: Answer, _: &[Effect]) {}

    #[inline]
    fn add_system(&mut self, _: u64, _: SystemMessage) {}

    fn len(&self) -> usize {
        0
    }
}

#[allow(dead_code)] // Nobody reads the journals.
enum Entry {
    Handled { envelope: Envelope, status: u64, answer: Answer, effects_end: usize },
    System { number: u64, message: SystemMessage, effects_end: usize },
}

/// Entries one after another, and their effects in a list of their own.
pub struct Compact {
    entries: Vec<Entry>,
    effects: Vec<Effect>,
}

impl Journal for Compact {
    const KEEPS: bool = true;

    fn new() -> Compact {
        Compact { entries: Vec::new(), effects: Vec::new() }
    }

    #[inline]
    fn ready(&mut self) {
        self.entries.reserve(1);
        self.effects.reserve(16);
    }

    #[inline]
    fn add_handled(&mut self, envelope: Envelope, status: u64, answer: Answer, effects: &[Effect]) {
        self.effects.extend_from_slice(effects);
        let effects_end = self.effects.len();
        self.entries.push(Entry::Handled { envelope, status, answer, effects_end });
    }

    #[inline]
    fn add_system(&mut self, number: u64, message: SystemMessage) {
        let effects_end = self.effects.len();
        self.entries.push(Entry::System { number, message, effects_end });
    }

    fn len(&self) -> usize {
        self.entries.len()
    }
}
