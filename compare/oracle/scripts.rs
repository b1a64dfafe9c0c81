//! Kinds 5 to 7: scripts on the text's clock, table and history.
//! Each returns whether the run goes on (a bad step ends it).
use std::io::Write;
use std::sync::atomic::{AtomicU64, Ordering};
use std::sync::Arc;

use crate::answer::{entries_sum, float, table_ok, totals_and_table};
use crate::clock::Clock;
use crate::game::Game;
use crate::history::HistoryHeuristic;
use crate::piece_move::PieceMove;
use crate::positions::Positions;
use crate::request::{Request, Step};
use crate::searches::{game, history_out};
use crate::settings;
use crate::switched_table::{SwitchedTable, Totals};
use crate::transposition::Bound;
use crate::tree::Node;

const MAX_TIME: u64 = u32::MAX as u64;

fn bad_step(out: &mut impl Write) -> bool {
    writeln!(out, "bad step").unwrap();
    false
}

// Clock

/// A new clock of the text that reads the script's time.
fn new_clock(level: u16, time: u64, now: &Arc<AtomicU64>) -> Clock {
    let mut clock = Clock::new(level, time);
    let now = now.clone();
    clock.system_time = Arc::new(move || now.load(Ordering::Relaxed) as u128);
    clock
}

fn poll_ok(clock: &Clock, nodes: u64, now: u64) -> bool {
    let start = clock.started_at as u64;
    nodes >= clock.last_nodes_count
        && now >= start
        && now - start <= MAX_TIME
        && clock.moves_remaining > 0
        && clock.time_remaining <= MAX_TIME
}

/// The value that a step answers, or refusal 10 (None).
fn clock_step(clock: &mut Clock, now: &Arc<AtomicU64>, step: &Step) -> Option<u64> {
    let &Step { h, a, b, .. } = step;
    let allowed = match step.operation {
        1 | 3 => a <= MAX_TIME,
        2 => (1..=65_535).contains(&a),
        6 => clock.moves_remaining > 0 && clock.time_remaining <= MAX_TIME,
        7 => poll_ok(clock, a, b),
        _ => true,
    };
    if !allowed {
        return None;
    }
    now.store(b, Ordering::Relaxed);
    match step.operation {
        1 => *clock = new_clock(h, a, now),
        2 => clock.start(a as usize),
        3 => clock.set_time(a),
        4 => clock.set_time_increment(h),
        5 => clock.stop(),
        6 => return Some(clock.allocated_time()),
        _ => return Some(clock.poll(a) as u64),
    }
    Some(0)
}

pub fn clock(r: &Request, out: &mut impl Write) -> bool {
    let now = Arc::new(AtomicU64::new(0));
    let mut clock = new_clock(0, 0, &now);
    for step in &r.steps {
        if !(1..=7).contains(&step.operation) {
            return bad_step(out);
        }
        let (no, value) = match clock_step(&mut clock, &now, step) {
            Some(value) => (0, value),
            None => (10, 0),
        };
        writeln!(
            out,
            "clock {no} value {value} level {} remaining {} time {} increment {} last {} start {} finished {}",
            clock.moves_level,
            clock.moves_remaining,
            clock.time_remaining,
            clock.time_increment,
            clock.last_nodes_count,
            clock.started_at,
            clock.is_finished.load(Ordering::Relaxed) as u8
        )
        .unwrap();
    }
    true
}

// Table

fn bound_number(bound: Bound) -> u8 {
    match bound {
        Bound::Exact => 0,
        Bound::Lower => 1,
        Bound::Upper => 2,
    }
}

fn bound_of(h: u16) -> Option<Bound> {
    match h {
        0 => Some(Bound::Exact),
        1 => Some(Bound::Lower),
        2 => Some(Bound::Upper),
        _ => None,
    }
}

fn lookup(tt: &mut SwitchedTable, hash: u64) -> String {
    let collisions = tt.table.stats_collisions;
    match tt.get(hash) {
        Some(t) => format!(
            "lookup 0 found hit depth {} score {} move {} bound {} entry-age {}",
            t.depth(),
            t.score(),
            t.best_move().to_u16(),
            bound_number(t.bound()),
            t.age()
        ),
        None => {
            let found = if tt.table.stats_collisions == collisions { "miss" } else { "collision" };
            format!("lookup 0 found {found} {NO_ENTRY}")
        }
    }
}

const NO_ENTRY: &str = "depth 0 score 0 move 0 bound 0 entry-age 0";

/// The entries of each bound whose move isn't 0, as the text's `print_stats` counts them.
fn occupancy(tt: &SwitchedTable) -> String {
    let mut counts = [0u64; 3];
    for t in tt.table.entries.get() {
        if !t.best_move().is_null() {
            counts[bound_number(t.bound()) as usize] += 1;
        }
    }
    let percent = |count: u64| float((count as f64) * 100.0 / (tt.table.len() as f64));
    let [exact, lower, upper] = counts.map(percent);
    format!("occupancy 0 exact {exact} lower {lower} upper {upper}")
}

fn rate(count: u64, lookups: u64) -> String {
    if count > 1 << 40 || lookups > 1 << 40 {
        "rate 11 0 e 0".into()
    } else if lookups == 0 {
        "rate 0 none".into()
    } else {
        format!("rate 0 {}", float((count as f64) * 100.0 / (lookups as f64)))
    }
}

fn rate_step(operation: u8, t: &Totals) -> String {
    let count = match operation {
        6 => t.hits,
        7 => t.misses,
        _ => t.collisions,
    };
    rate(count, t.lookups)
}

/// Operations 1 to 4 where the table is not refused.
fn change_table(tt: &mut SwitchedTable, step: &Step, bound: Bound) -> String {
    match step.operation {
        1 => lookup(tt, step.a),
        2 => {
            tt.set(step.a, step.d, step.s, PieceMove::from_u16(step.m), bound);
            "store 0".into()
        }
        3 => {
            tt.reset();
            "reset 0".into()
        }
        _ => {
            tt.clear();
            "clear 0".into()
        }
    }
}

fn refused_table(operation: u8) -> String {
    match operation {
        1 => format!("lookup 8 found none {NO_ENTRY}"),
        2 => "store 8".into(),
        3 => "reset 8".into(),
        4 => "clear 8".into(),
        _ => "occupancy 8 exact 0 e 0 lower 0 e 0 upper 0 e 0".into(),
    }
}

pub fn table(r: &mut Request, out: &mut impl Write) -> bool {
    // A refused table is never touched, so a table of no entries stands for it.
    let is_ok = table_ok(&r.table);
    let lent: &[u64] = if is_ok { &r.table } else { &[] };
    let mut tt = SwitchedTable::lend(true, lent, &r.totals);
    for step in &r.steps {
        let bound = match step.operation {
            2 => bound_of(step.h),
            1 | 3..=8 => Some(Bound::Exact),
            _ => None,
        };
        let Some(bound) = bound else {
            return bad_step(out);
        };
        let operation = step.operation;
        let line = match operation {
            6..=8 => rate_step(operation, &tt.totals()),
            _ if !is_ok => refused_table(operation),
            5 => occupancy(&tt),
            _ => change_table(&mut tt, step, bound),
        };
        if operation <= 4 {
            if is_ok {
                tt.write_back(&mut r.table, &mut r.totals);
            }
            writeln!(out, "{line}{}", totals_and_table(&r.totals, &r.table)).unwrap();
        } else {
            writeln!(out, "{line}").unwrap();
        }
    }
    true
}

// History

fn history_refusal(r: &Request, side: u16) -> u8 {
    let hh_max = r.hh_max as i32;
    if !settings::hh_max_ok(r.hh_max) || !settings::side_ok(side) {
        6
    } else if r.history.len() != 8_192 {
        8
    } else if r.history.iter().any(|&e| (e as i32).abs() > hh_max) {
        9
    } else {
        0
    }
}

/// One node: history reads only the side of a game.
fn lone_node() -> Node {
    Node { first: 0, count: 0, flags: 0, eval: 0, mv: 0, hash: 0, level: 0 }
}

/// The delta is the entry that a bonus leaves where 0 stood: gravity takes nothing off 0.
fn delta(game: &mut Game, r: &Request, d: i8) -> String {
    if !settings::hh_max_ok(r.hh_max) {
        return "delta 6 0".into();
    }
    let kept = game.history;
    game.clear_history();
    game.positions = Positions::new(lone_node(), 0);
    let m = PieceMove::from_u16(0);
    game.inc_history(m, d);
    let value = game.get_history(m);
    game.history = kept;
    format!("delta 0 {value}")
}

pub fn history(r: &mut Request, out: &mut impl Write) -> bool {
    let mut game = game(r, vec![lone_node()], 0);
    for step in &r.steps {
        let m = PieceMove::from_u16(step.m);
        let name = match step.operation {
            1 => {
                writeln!(out, "{}", delta(&mut game, r, step.d)).unwrap();
                continue;
            }
            2 => "bonus",
            3 => "malus",
            _ => return bad_step(out),
        };
        let no = history_refusal(r, step.h);
        let mut entry = 0;
        if no == 0 {
            game.positions = Positions::new(lone_node(), step.h as u8);
            if step.operation == 2 {
                game.inc_history(m, step.d);
            } else {
                game.dec_history(m, step.d);
            }
            entry = game.get_history(m);
            history_out(&game, &mut r.history);
        }
        writeln!(out, "{name} {no} entry {entry} history {:016x}", entries_sum(&r.history)).unwrap();
    }
    true
}
