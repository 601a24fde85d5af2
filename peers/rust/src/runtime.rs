//! Actors on worker threads: status words with a scheduled bit and a count of suspensions, a queue of envelopes and a list of system
//! messages for each actor, and runs of at most `throughput` envelopes.

use crate::actor::{Actor, Answer, Body, Effect, Envelope, Outbox, Script, Scripted};
use crate::journal::{Journal, SystemMessage};
use crate::pool::{Pool, Port, ACTORS};
use crate::workload::{End, Send};
use crossbeam_queue::SegQueue;
use crossbeam_utils::{Backoff, CachePadded};
use std::cell::UnsafeCell;
use std::ptr;
use std::sync::atomic::{AtomicPtr, AtomicU64, AtomicUsize, Ordering::SeqCst};
use std::sync::Barrier;
use std::time::Instant;

const CLOSED: u64 = 1;
const SCHEDULED: u64 = 2;
const ONE_SUSPENSION: u64 = 4;

/// Which steps are made beside those that any runtime needs.
pub trait Steps: Sync + 'static {
    /// Whether an actor counts its waiting envelopes: added to before a push, subtracted from after a take.
    const COUNTS: bool;
    /// Whether each look at a list of system messages takes a gate by an exchange, and gives it back.
    const GATES: bool;
    type Journal: Journal;
}

struct SystemNode {
    message: SystemMessage,
    next: *mut SystemNode,
}

/// What the holder of an actor's claim alone uses.
struct Cell<J> {
    actor: Box<dyn Actor>,
    parent: u32,
    sent: u64,
    system_messages: u64,
    handled: u64,
    restarts: u64,
    journal: J,
}

struct Slot<J> {
    status: CachePadded<AtomicU64>,
    waiting: CachePadded<AtomicU64>,
    gate: CachePadded<AtomicU64>,
    system: CachePadded<AtomicPtr<SystemNode>>,
    queue: SegQueue<Envelope>,
    cell: CachePadded<UnsafeCell<Cell<J>>>,
}

impl<J: Journal> Slot<J> {
    fn new(script: Script) -> Slot<J> {
        Slot {
            status: CachePadded::new(AtomicU64::new(0)),
            waiting: CachePadded::new(AtomicU64::new(0)),
            gate: CachePadded::new(AtomicU64::new(0)),
            system: CachePadded::new(AtomicPtr::new(ptr::null_mut())),
            queue: SegQueue::new(),
            cell: CachePadded::new(UnsafeCell::new(Cell {
                actor: Box::new(Scripted::new(script.rows)),
                parent: script.parent,
                sent: 0,
                system_messages: 0,
                handled: 0,
                restarts: 0,
                journal: J::new(),
            })),
        }
    }

    fn has_system(&self) -> bool {
        !self.system.load(SeqCst).is_null()
    }
}

/// Whom a run sent something and has not registered yet, each once, in order.
struct Told {
    count: usize,
    order: [u32; Told::MOST],
    /// The same as bits, so that one look tells whether an actor is there.
    set: u64,
}

impl Told {
    const MOST: usize = 64;

    fn none() -> Told {
        Told { count: 0, order: [0; Told::MOST], set: 0 }
    }

    #[inline]
    fn contains(&self, id: u32) -> bool {
        self.set >> id & 1 != 0
    }

    #[inline]
    fn add(&mut self, id: u32) {
        self.order[self.count] = id;
        self.count += 1;
        self.set |= 1 << id;
    }

    #[inline]
    fn clear(&mut self) {
        self.count = 0;
        self.set = 0;
    }
}

/// What a worker uses alone.
struct WorkerState {
    port: Port,
    told: Told,
}

pub struct Runtime<S: Steps, const STEALING: bool> {
    slots: Vec<Slot<S::Journal>>,
    pool: Pool<STEALING>,
    throughput: u32,
    workers: usize,
    /// How many workers wait for a claim.
    idle: CachePadded<AtomicUsize>,
    /// How many senders have not sent all.
    jobs: CachePadded<AtomicUsize>,
}

// SAFETY: a cell is used only by whoever holds its actor's scheduled bit.
unsafe impl<S: Steps, const STEALING: bool> Sync for Runtime<S, STEALING> {}

pub struct Outcome {
    /// From the first sender's start to the last worker's end.
    pub seconds: f64,
    pub ends: Vec<End>,
    pub left: usize,
    pub entries: usize,
}

impl<S: Steps, const STEALING: bool> Runtime<S, STEALING> {
    #[inline]
    fn slot(&self, id: u32) -> &Slot<S::Journal> {
        &self.slots[id as usize]
    }

    fn take_gate(&self, slot: &Slot<S::Journal>) {
        let backoff = Backoff::new();
        while S::GATES && slot.gate.swap(1, SeqCst) != 0 {
            backoff.spin();
        }
    }

    fn give_gate(&self, slot: &Slot<S::Journal>) {
        if S::GATES {
            slot.gate.store(0, SeqCst);
        }
    }

    fn list_system(&self, id: u32, message: SystemMessage) {
        let slot = self.slot(id);
        let node = Box::into_raw(Box::new(SystemNode { message, next: ptr::null_mut() }));
        self.take_gate(slot);
        loop {
            let first = slot.system.load(SeqCst);
            // SAFETY: the node is not listed yet.
            unsafe { (*node).next = first };
            if slot.system.compare_exchange(first, node, SeqCst, SeqCst).is_ok() {
                break;
            }
        }
        self.give_gate(slot);
    }

    /// Takes all system messages off an actor's list, earliest first.
    fn drain_system(&self, slot: &Slot<S::Journal>) -> *mut SystemNode {
        if !S::GATES && !slot.has_system() {
            return ptr::null_mut();
        }
        self.take_gate(slot);
        let mut node = slot.system.swap(ptr::null_mut(), SeqCst);
        self.give_gate(slot);
        let mut reversed = ptr::null_mut();
        while !node.is_null() {
            // SAFETY: this thread took the node off the list.
            let next = unsafe { (*node).next };
            unsafe { (*node).next = reversed };
            reversed = node;
            node = next;
        }
        reversed
    }

    fn has_envelopes(&self, slot: &Slot<S::Journal>) -> bool {
        if S::COUNTS {
            slot.waiting.load(SeqCst) != 0
        } else {
            !slot.queue.is_empty()
        }
    }

    /// Sets an actor's scheduled bit, where there is a reason and it is not set: then the caller has its claim.
    #[inline]
    fn schedule(&self, id: u32, has_envelope: bool) -> bool {
        let slot = self.slot(id);
        loop {
            let status = slot.status.load(SeqCst);
            if status & (CLOSED | SCHEDULED) != 0 {
                return false;
            }
            let may_handle = status < ONE_SUSPENSION && (has_envelope || self.has_envelopes(slot));
            if !may_handle && !slot.has_system() {
                return false;
            }
            if slot.status.compare_exchange(status, status | SCHEDULED, SeqCst, SeqCst).is_ok() {
                return true;
            }
        }
    }

    /// Puts an envelope into its receiver's queue.
    #[inline]
    fn put(&self, envelope: Envelope) -> bool {
        let slot = self.slot(envelope.to);
        if slot.status.load(SeqCst) == CLOSED {
            return false;
        }
        if S::COUNTS {
            slot.waiting.fetch_add(1, SeqCst);
        }
        slot.queue.push(envelope);
        true
    }

    /// Notes that a run sent this actor a system message.
    #[inline]
    fn note(&self, worker: &mut WorkerState, id: u32) {
        if !worker.told.contains(id) {
            worker.told.add(id);
        }
        self.register_if_awaited(worker);
    }

    /// Notes that a run told this actor something, if the actor has to be run now: it is neither suspended nor scheduled.
    #[inline]
    fn note_told(&self, worker: &mut WorkerState, id: u32) {
        if !worker.told.contains(id) && self.slot(id).status.load(SeqCst) == 0 {
            worker.told.add(id);
        }
        self.register_if_awaited(worker);
    }

    /// Registers all that are noted, where another worker waits.
    #[inline]
    fn register_if_awaited(&self, worker: &mut WorkerState) {
        if self.idle.load(SeqCst) != 0 && worker.told.count != 0 {
            self.register_told(worker);
        }
    }

    /// Registers all that are noted, in order, during a run.
    #[inline(never)]
    fn register_told(&self, worker: &mut WorkerState) {
        for &id in &worker.told.order[..worker.told.count] {
            if self.schedule(id, false) {
                self.pool.push(&worker.port, id);
            }
        }
        worker.told.clear();
    }

    /// Registers an actor at the end of a run.
    #[inline]
    fn register_at_end(&self, port: &mut Port, id: u32) {
        if self.schedule(id, false) {
            self.pool.push_at_end(port, id);
        }
    }

    fn apply_system(&self, id: u32, cell: &mut Cell<S::Journal>, worker: &mut WorkerState) {
        loop {
            let mut node = self.drain_system(self.slot(id));
            if node.is_null() {
                return;
            }
            while !node.is_null() {
                // SAFETY: this thread took the node off the list.
                let SystemNode { message, next } = *unsafe { Box::from_raw(node) };
                node = next;
                cell.journal.ready();
                cell.journal.add_system(cell.system_messages, message);
                cell.system_messages += 1;
                match message {
                    SystemMessage::Failed { child, error } => {
                        self.list_system(child, SystemMessage::Restart { error });
                        self.note(worker, child);
                    }
                    SystemMessage::Restart { .. } => {
                        self.slot(id).status.fetch_sub(ONE_SUSPENSION, SeqCst);
                        cell.actor.restart();
                        cell.restarts += 1;
                    }
                }
            }
        }
    }

    fn handle(&self, id: u32, cell: &mut Cell<S::Journal>, worker: &mut WorkerState, envelope: Envelope, status: u64) {
        let mut outbox = Outbox::new();
        let answer = cell.actor.receive(&envelope.body, &mut outbox);
        cell.handled += 1;
        cell.journal.add_handled(envelope, status, answer, outbox.as_slice());
        for effect in outbox.as_slice() {
            if let Effect::Tell(to, kind, value) = *effect {
                let number = cell.sent;
                cell.sent += 1;
                if self.put(Envelope { by: id, number, to, body: Body::User(kind, value) }) {
                    self.note_told(worker, to);
                }
            }
        }
        if let Answer::Failed(error) = answer {
            self.slot(id).status.fetch_add(ONE_SUSPENSION, SeqCst);
            self.list_system(cell.parent, SystemMessage::Failed { child: id, error });
            self.note(worker, cell.parent);
        }
    }

    fn handle_envelopes(&self, id: u32, cell: &mut Cell<S::Journal>, worker: &mut WorkerState) {
        let slot = self.slot(id);
        for _ in 0..self.throughput {
            let status = slot.status.load(SeqCst);
            if status & !SCHEDULED != 0 {
                return;
            }
            cell.journal.ready();
            let Some(envelope) = slot.queue.pop() else { return };
            if S::COUNTS {
                slot.waiting.fetch_sub(1, SeqCst);
            }
            self.handle(id, cell, worker, envelope, status);
            self.apply_system(id, cell, worker);
        }
    }

    /// Runs an actor's mailbox. Whom it told is registered before the actor, and the actor last.
    fn run_mailbox(&self, id: u32, worker: &mut WorkerState) {
        let slot = self.slot(id);
        if slot.status.load(SeqCst) != CLOSED {
            // SAFETY: this thread holds the actor's scheduled bit.
            let cell = unsafe { &mut *slot.cell.get() };
            self.apply_system(id, cell, worker);
            self.handle_envelopes(id, cell, worker);
        }
        for &told in &worker.told.order[..worker.told.count] {
            self.register_at_end(&mut worker.port, told);
        }
        worker.told.clear();
        slot.status.fetch_and(!SCHEDULED, SeqCst);
        self.register_at_end(&mut worker.port, id);
    }

    /// Whether no job is open, and every worker waits.
    fn is_over(&self) -> bool {
        self.jobs.load(SeqCst) == 0 && self.idle.load(SeqCst) == self.workers
    }

    fn next_claim(&self, port: &mut Port) -> Option<u32> {
        if let Some(claim) = self.pool.take(port) {
            return Some(claim);
        }
        self.idle.fetch_add(1, SeqCst);
        let backoff = Backoff::new();
        loop {
            // Asked only after a while, since a worker counts as waiting until right after it took a claim.
            let is_over = backoff.is_completed() && self.is_over();
            if let Some(claim) = self.pool.take(port) {
                self.idle.fetch_sub(1, SeqCst);
                return Some(claim);
            }
            if is_over {
                return None;
            }
            backoff.snooze();
        }
    }

    fn work(&self, port: Port) {
        let mut worker = WorkerState { port, told: Told::none() };
        while let Some(claim) = self.next_claim(&mut worker.port) {
            self.run_mailbox(claim, &mut worker);
        }
    }

    /// Sends all that an outside sender sends.
    fn send(&self, by: u32, sends: &[Send]) {
        let mut number = 0;
        for send in sends {
            for _ in 0..send.times {
                let body = Body::User(1, send.value);
                if self.put(Envelope { by, number, to: send.to, body }) && self.schedule(send.to, true) {
                    self.pool.push_from_outside(send.to);
                }
                number += 1;
            }
        }
        self.jobs.fetch_sub(1, SeqCst);
    }

    /// Builds the actors, runs all, and looks at the end.
    pub fn run(scripts: Vec<Script>, jobs: Vec<Vec<Send>>, workers: usize, throughput: u32) -> Outcome {
        let (pool, ports) = Pool::new(workers);
        let runtime = Runtime::<S, STEALING> {
            slots: scripts.into_iter().map(Slot::new).collect(),
            pool,
            throughput,
            workers,
            idle: CachePadded::new(AtomicUsize::new(0)),
            jobs: CachePadded::new(AtomicUsize::new(jobs.len())),
        };
        let seconds = runtime.run_threads(ports, &jobs);
        let mut outcome = Outcome { seconds, ends: Vec::new(), left: 0, entries: 0 };
        for slot in runtime.slots {
            let cell = slot.cell.into_inner().into_inner();
            outcome.ends.push(End { state: cell.actor.state(), handled: cell.handled, restarts: cell.restarts });
            outcome.left += slot.queue.len();
            outcome.entries += cell.journal.len();
        }
        outcome
    }

    fn run_threads(&self, ports: Vec<Port>, jobs: &[Vec<Send>]) -> f64 {
        let barrier = &Barrier::new(ports.len() + jobs.len());
        std::thread::scope(|scope| {
            let worker = |port| {
                scope.spawn(move || {
                    barrier.wait();
                    self.work(port);
                    Instant::now()
                })
            };
            let sender = |(number, sends): (usize, _)| {
                scope.spawn(move || {
                    barrier.wait();
                    let start = Instant::now();
                    self.send((ACTORS + number) as u32, sends);
                    start
                })
            };
            let workers: Vec<_> = ports.into_iter().map(worker).collect();
            let senders: Vec<_> = jobs.iter().map(Vec::as_slice).enumerate().map(sender).collect();
            let start = senders.into_iter().map(|thread| thread.join().unwrap()).min();
            let end = workers.into_iter().map(|thread| thread.join().unwrap()).max();
            (end.unwrap() - start.unwrap()).as_secs_f64()
        })
    }
}
