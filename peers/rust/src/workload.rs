//! The six workloads, as tools/workloads.py has them for the scenarios.

use crate::actor::{Script, Step};

/// So many messages of kind 1 with this value to this actor.
pub struct Send {
    pub to: u32,
    pub value: i64,
    pub times: u64,
}

/// What an actor has to end with.
#[derive(Debug, PartialEq)]
pub struct End {
    pub state: i64,
    pub handled: u64,
    pub restarts: u64,
}

/// The actors by their numbers, what each outside sender sends, and the ends of the actors.
#[derive(Default)]
pub struct Workload {
    pub scripts: Vec<Script>,
    pub jobs: Vec<Vec<Send>>,
    pub ends: Vec<End>,
}

impl Workload {
    fn actor(&mut self, parent: u32, rows: Vec<(u32, Vec<Step>)>, end: End) {
        self.scripts.push(Script { parent, rows });
        self.ends.push(end);
    }

    /// An actor that adds up so many messages of this value.
    fn counter(&mut self, count: u64, value: i64) {
        let end = End { state: count as i64 * value, handled: count, restarts: 0 };
        self.actor(0, vec![(1, vec![Step::Add])], end);
    }

    /// An actor that hands each of so many messages to these others.
    fn teller(&mut self, count: u64, others: impl Iterator<Item = u32>) {
        let steps = others.map(|to| Step::Tell(to, 1)).collect();
        self.actor(0, vec![(1, steps)], End { state: 0, handled: count, restarts: 0 });
    }

    fn job(&mut self, sends: impl Iterator<Item = (u32, i64, u64)>) {
        self.jobs.push(sends.map(|(to, value, times)| Send { to, value, times }).collect());
    }
}

/// The workload of this name. With `once`, each send is made once.
pub fn named(name: &str, once: bool) -> Option<Workload> {
    let times = |times| if once { 1 } else { times };
    let mut work = Workload::default();
    match name {
        "count" => {
            let most = times(1_000_000);
            work.counter(most, 1);
            work.job([(0, 1, most)].into_iter());
        }
        "fan-in" => {
            let most = times(250_000);
            work.counter(4 * most, 1);
            (0..4).for_each(|_| work.job([(0, 1, most)].into_iter()));
        }
        "spread" => {
            let most = times(992);
            (0..63).for_each(|_| work.counter(16 * most, 1));
            for sender in 0..4 {
                work.job((0..4 * 63).map(|place| ((16 * sender + place) % 63, 1, most)));
            }
        }
        "chain" => {
            let most = times(20_000);
            (1..63).for_each(|next| work.teller(most, [next].into_iter()));
            work.counter(most, 3);
            work.job([(0, 3, most)].into_iter());
        }
        "fan-out" => {
            let most = times(50_000);
            work.teller(most, 1..17);
            (0..16).for_each(|_| work.counter(most, 3));
            work.job([(0, 3, most)].into_iter());
        }
        "restart" => {
            let most = times(10_000);
            work.actor(0, vec![], End { state: 0, handled: 0, restarts: 0 });
            let rows = vec![(1, vec![Step::Add]), (2, vec![Step::Fail(7)])];
            work.actor(0, rows, End { state: 0, handled: 10 * most, restarts: most });
            let mut steps = vec![Step::Tell(1, 1); 9];
            steps.push(Step::Tell(1, 2));
            work.actor(0, vec![(1, steps)], End { state: 0, handled: most, restarts: 0 });
            work.job([(2, 3, most)].into_iter());
        }
        _ => return None,
    }
    Some(work)
}
