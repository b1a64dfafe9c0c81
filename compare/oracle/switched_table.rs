//! The text's `TranspositionTable` on lent words, behind the table switch.
use std::sync::atomic::{AtomicU64, AtomicU8, Ordering};
use std::sync::Arc;

use crate::common::{Depth, Score};
use crate::piece_move::PieceMove;
use crate::transposition::{Bound, Transposition};
use crate::transposition_table::{SharedTable, TranspositionTable};

/// Age and counters as they go in and come back.
#[derive(Copy, Clone)]
pub struct Totals {
    pub age: u8,
    pub lookups: u64,
    pub inserts: u64,
    pub hits: u64,
    pub misses: u64,
    pub collisions: u64,
}

pub struct SwitchedTable {
    pub is_on: bool,
    pub table: TranspositionTable,
    misses: u64,
}

impl SwitchedTable {
    pub fn lend(is_on: bool, words: &[u64], totals: &Totals) -> SwitchedTable {
        let entry = |w: &[u64]| Transposition {
            hash: AtomicU64::new(w[0]),
            data: AtomicU64::new(w[1]),
        };
        let inner = words.chunks_exact(2).map(entry).collect();
        let table = TranspositionTable {
            entries: Arc::new(SharedTable { inner }),
            age: Arc::new(AtomicU8::new(totals.age)),
            stats_lookups: totals.lookups,
            stats_inserts: totals.inserts,
            stats_hits: totals.hits,
            stats_collisions: totals.collisions,
        };
        SwitchedTable { is_on, table, misses: totals.misses }
    }

    pub fn write_back(&self, words: &mut [u64], totals: &mut Totals) {
        for (w, entry) in words.chunks_exact_mut(2).zip(self.table.entries.get()) {
            w[0] = entry.hash();
            w[1] = entry.data();
        }
        *totals = self.totals();
    }

    pub fn totals(&self) -> Totals {
        Totals {
            age: self.table.age.load(Ordering::Relaxed),
            lookups: self.table.stats_lookups,
            inserts: self.table.stats_inserts,
            hits: self.table.stats_hits,
            misses: self.misses,
            collisions: self.table.stats_collisions,
        }
    }

    pub fn prefetch(&self, hash: u64) {
        if self.is_on {
            self.table.prefetch(hash);
        }
    }

    /// The text derives misses from the other totals; here a lookup that found
    /// nothing and was no collision counts as a miss where it happens.
    pub fn get(&mut self, hash: u64) -> Option<Transposition> {
        if !self.is_on {
            return None;
        }
        let collisions = self.table.stats_collisions;
        let found = self.table.get(hash);
        if found.is_none() && self.table.stats_collisions == collisions {
            self.misses += 1;
        }
        found
    }

    pub fn set(&mut self, hash: u64, depth: Depth, score: Score, m: PieceMove, bound: Bound) {
        if self.is_on {
            self.table.set(hash, depth, score, m, bound);
        }
    }

    pub fn reset(&mut self) {
        if self.is_on {
            self.table.reset();
            self.misses = 0;
        }
    }

    pub fn clear(&mut self) {
        self.table.clear();
        self.misses = 0;
    }
}
