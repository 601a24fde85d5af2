//! What is sent, what an actor answers and asks for, and the actor that a script describes.

use std::mem::MaybeUninit;

/// The most effects of one message.
const MOST_EFFECTS: usize = 16;

#[derive(Clone, Copy)]
#[allow(dead_code)] // The workloads send user messages alone.
pub enum Body {
    User(u32, i64),
    PoisonPill,
    Kill,
    Terminated(u32),
}

#[derive(Clone, Copy)]
#[allow(dead_code)] // Nobody reads the journals, in which sender and number stay.
pub struct Envelope {
    pub by: u32,
    pub number: u64,
    pub to: u32,
    pub body: Body,
}

#[derive(Clone, Copy)]
pub enum Answer {
    Handled,
    Unhandled,
    Failed(u32),
}

#[derive(Clone, Copy)]
#[allow(dead_code)] // The workloads only tell.
pub enum Effect {
    Tell(u32, u32, i64),
    Watch(u32),
    Unwatch(u32),
    Stop(u32),
    Spawn(u32),
}

/// The effects that an actor asks for while it handles a message.
pub struct Outbox {
    len: usize,
    effects: [MaybeUninit<Effect>; MOST_EFFECTS],
}

impl Outbox {
    #[inline]
    pub fn new() -> Outbox {
        Outbox { len: 0, effects: [const { MaybeUninit::uninit() }; MOST_EFFECTS] }
    }

    #[inline]
    fn push(&mut self, effect: Effect) {
        if self.len < MOST_EFFECTS {
            self.effects[self.len] = MaybeUninit::new(effect);
            self.len += 1;
        }
    }

    #[inline]
    pub fn as_slice(&self) -> &[Effect] {
        // SAFETY: the first `len` effects were written.
        unsafe { std::slice::from_raw_parts(self.effects.as_ptr().cast(), self.len) }
    }
}

pub trait Actor: Send {
    fn receive(&mut self, body: &Body, outbox: &mut Outbox) -> Answer;
    fn restart(&mut self);
    fn state(&self) -> i64;
}

#[derive(Clone, Copy)]
pub enum Step {
    Add,
    Tell(u32, u32),
    Fail(u32),
}

/// What a scenario says of an actor: its parent, and the steps for each kind of message.
pub struct Script {
    pub parent: u32,
    pub rows: Vec<(u32, Vec<Step>)>,
}

/// An actor that does what its script says, as a scenario's actor does.
pub struct Scripted {
    rows: Vec<(u32, Vec<Step>)>,
    state: i64,
}

impl Scripted {
    pub fn new(rows: Vec<(u32, Vec<Step>)>) -> Scripted {
        Scripted { rows, state: 0 }
    }
}

impl Actor for Scripted {
    fn receive(&mut self, body: &Body, outbox: &mut Outbox) -> Answer {
        let Body::User(kind, value) = *body else {
            return Answer::Unhandled;
        };
        let Some((_, steps)) = self.rows.iter().find(|row| row.0 == kind) else {
            return Answer::Unhandled;
        };
        for step in steps {
            match *step {
                Step::Add => self.state = self.state.saturating_add(value),
                Step::Tell(to, kind) => outbox.push(Effect::Tell(to, kind, value)),
                Step::Fail(error) => return Answer::Failed(error),
            }
        }
        Answer::Handled
    }

    fn restart(&mut self) {
        self.state = 0;
    }

    fn state(&self) -> i64 {
        self.state
    }
}
