//! The search's clock: the text's `Clock` with time without end, stopped
//! before a poll once the node limit is reached.
use std::sync::atomic::Ordering;
use std::sync::Arc;

use crate::clock::Clock;

pub struct LimitClock {
    clock: Clock,
    limit: u64,
}

impl LimitClock {
    pub fn new(limit: u64) -> LimitClock {
        let mut clock = Clock::new(1, u64::MAX / 2);
        clock.system_time = Arc::new(|| 0);
        LimitClock { clock, limit }
    }

    pub fn start(&mut self, ply: usize) {
        self.clock.start(ply);
    }

    pub fn poll(&mut self, nodes_count: u64) -> bool {
        if nodes_count >= self.limit {
            self.clock.stop();
        }
        self.clock.poll(nodes_count)
    }

    pub fn is_stopped(&self) -> bool {
        self.clock.is_finished.load(Ordering::Relaxed)
    }
}
