//! The pool of claims: one shared queue, or a deque for each worker beside an injector for all others. A claim is an actor's number:
//! whoever set its scheduled bit may run it.

use crossbeam_deque::{Injector, Steal, Stealer, Worker};
use crossbeam_queue::ArrayQueue;

/// The most actors, so also the most claims.
pub const ACTORS: usize = 64;

pub struct Pool<const STEALING: bool> {
    shared: ArrayQueue<u32>,
    injector: Injector<u32>,
    stealers: Vec<Stealer<u32>>,
}

/// A worker's port of the pool.
pub struct Port {
    number: usize,
    own: Worker<u32>,
    /// The claim that the worker takes next, which was first in its own queue.
    next: Option<u32>,
}

impl<const STEALING: bool> Pool<STEALING> {
    /// A pool with a port for each of so many workers.
    pub fn new(workers: usize) -> (Pool<STEALING>, Vec<Port>) {
        let ports: Vec<Port> = (0..workers).map(|number| Port { number, own: Worker::new_fifo(), next: None }).collect();
        let stealers = ports.iter().map(|port| port.own.stealer()).collect();
        (Pool { shared: ArrayQueue::new(ACTORS), injector: Injector::new(), stealers }, ports)
    }

    #[inline]
    fn push_shared(&self, claim: u32) {
        self.shared.push(claim).expect("an actor has one claim at most");
    }

    /// Pushes a claim from outside the workers.
    #[inline]
    pub fn push_from_outside(&self, claim: u32) {
        if STEALING {
            self.injector.push(claim);
        } else {
            self.push_shared(claim);
        }
    }

    /// Pushes a claim into the worker's own queue.
    #[inline]
    pub fn push(&self, port: &Port, claim: u32) {
        if STEALING {
            port.own.push(claim);
        } else {
            self.push_shared(claim);
        }
    }

    /// Pushes a claim at the end of a run. It goes behind all that are in the worker's own queue, but the first of them all is kept
    /// for the worker, which takes it next.
    #[inline]
    pub fn push_at_end(&self, port: &mut Port, claim: u32) {
        if port.next.is_some() {
            return self.push(port, claim);
        }
        port.next = self.first_own(port);
        if port.next.is_some() {
            self.push(port, claim);
        } else {
            port.next = Some(claim);
        }
    }

    #[inline]
    fn first_own(&self, port: &Port) -> Option<u32> {
        if STEALING {
            port.own.pop()
        } else {
            self.shared.pop()
        }
    }

    /// Takes the claim that is kept, else the first of the own queue, else of the injector, else one of the next workers in order.
    #[inline]
    pub fn take(&self, port: &mut Port) -> Option<u32> {
        let own = port.next.take().or_else(|| self.first_own(port));
        if !STEALING || own.is_some() {
            return own;
        }
        let next_workers = (1..self.stealers.len()).map(|step| &self.stealers[(port.number + step) % self.stealers.len()]);
        stolen(|| self.injector.steal()).or_else(|| next_workers.into_iter().find_map(|stealer| stolen(|| stealer.steal())))
    }
}

/// Steals until it is clear whether there was a claim.
fn stolen(mut steal: impl FnMut() -> Steal<u32>) -> Option<u32> {
    loop {
        match steal() {
            Steal::Success(claim) => return Some(claim),
            Steal::Empty => return None,
            Steal::Retry => {}
        }
    }
}
