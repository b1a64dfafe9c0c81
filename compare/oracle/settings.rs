//! INF, MAX_PLY and HH_MAX as settings of the request at hand.
use std::sync::atomic::{AtomicI16, AtomicUsize, Ordering::Relaxed};

use crate::common::Score;

static INF: AtomicI16 = AtomicI16::new(0);
static MAX_PLY: AtomicUsize = AtomicUsize::new(0);
static HH_MAX: AtomicI16 = AtomicI16::new(0);

pub fn inf() -> Score {
    INF.load(Relaxed)
}

pub fn max_ply() -> usize {
    MAX_PLY.load(Relaxed)
}

pub fn hh_max() -> Score {
    HH_MAX.load(Relaxed)
}

pub fn set(inf: Score, max_ply: u16, hh_max: Score) {
    INF.store(inf, Relaxed);
    MAX_PLY.store(max_ply as usize, Relaxed);
    HH_MAX.store(hh_max, Relaxed);
}

/// Refusal 6 of an entry that takes INF and MAX_PLY.
pub fn tree_settings_ok(inf: i16, max_ply: u16) -> bool {
    (1_000..=30_000).contains(&inf) && (32..=128).contains(&max_ply)
}

pub fn hh_max_ok(hh_max: i16) -> bool {
    (4..=16_384).contains(&hh_max)
}

pub fn side_ok(side: u16) -> bool {
    side <= 1
}

pub fn limit_ok(limit: u64) -> bool {
    (1..=1_000_000_000).contains(&limit)
}
