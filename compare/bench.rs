//! Times the root search: the Rust text over a tree beside the proved library, in one process, on the same trees and settings. Both
//! answers are compared first. The table is cleared before each search; the order of the two changes from round to round.
use std::process::Command;
use std::time::Instant;

use crate::request::Request;
use crate::rng::Rng;
use crate::search::Search;
use crate::searches;
use crate::switched_table::Totals;
use crate::tree::read_tree;
use crate::trees::{encode, Node, CHECK, QUIET};

extern "C" {
    // A slice goes as its pointer and its length.
    fn desk_tree_check(tree: *const u8, length: usize, inf: i16, max_ply: u16) -> u8;
    fn desk_search_root(
        tree: *const u8, length: usize, words: *mut u64, words_length: usize, history: *mut i16, history_length: usize,
        switches: u8, limit: u64, end: i8, score: &mut i16, mv: &mut u16, nodes: &mut u64,
    ) -> u8;
}

const INF: i16 = 30_000;
const MAX_PLY: u16 = 128;
const LIMIT: u64 = 1_000_000;
const END: i8 = 31;
const WORDS: usize = 8_192;
const ALL: u8 = 63;
const NO_TABLE: u8 = 62;
const NONE: u8 = 0;

#[derive(PartialEq, Debug)]
struct Answer {
    score: i16,
    mv: u16,
    nodes: u64,
    words: Vec<u64>,
    history: Vec<i16>,
}

/// `size` nodes with about `width` children each: most moves quiet, some checks, evaluations that drift along a line of play.
fn tree(size: usize, width: usize) -> Vec<u8> {
    let rng = Rng::new(width as u64, size as u64);
    let mut nodes = vec![Node::default()];
    let mut k = 0;
    while k < nodes.len() {
        let wanted = rng.range((width as i64 * 2 + 2) / 3, (width as i64 * 4 / 3).min(63)) as usize;
        let count = wanted.min(size - nodes.len());
        nodes[k].first = if count == 0 { 0 } else { nodes.len() as u16 };
        nodes[k].count = count as u8;
        nodes[k].hash = rng.next();
        for j in 0..count {
            let quiet = if rng.chance(80) { QUIET } else { 0 };
            let check = if rng.chance(5) { CHECK } else { 0 };
            let eval = (-nodes[k].eval as i64 + rng.range(-90, 90)).clamp(-5_000, 5_000) as i16;
            let mv = (1 + j as u16) * 1_024 + rng.range(0, 1_023) as u16;
            nodes.push(Node { flags: quiet | check | if rng.chance(30) { 16 } else { 0 }, eval, mv, ..Node::default() });
        }
        k += 1;
    }
    encode(&nodes)
}

fn request(tree: &[u8], switches: u8) -> Request {
    Request {
        kind: 1, switches, inf: INF, max_ply: MAX_PLY, hh_max: 16_384, side: 0, depth: 1, end: END, alpha: 0, beta: 0,
        limit: LIMIT, node: 0, ply: 0,
        totals: Totals { age: 0, lookups: 0, inserts: 0, hits: 0, misses: 0, collisions: 0 },
        tree: tree.to_vec(), table: vec![0; WORDS], history: vec![0; 8_192], steps: vec![],
    }
}

/// Seconds of the search alone, without the reading of the tree, and the answer.
#[inline(never)]
fn rust(r: &Request) -> (f64, Answer) {
    let nodes = read_tree(&r.tree, INF, MAX_PLY).ok().unwrap();
    let mut game = searches::game(r, nodes, 0);
    let start = Instant::now();
    let mv = game.search(1..END).map_or(0, |m| m.to_u16());
    let seconds = start.elapsed().as_secs_f64();
    let (mut words, mut totals, mut history) = (r.table.clone(), r.totals, r.history.clone());
    game.tt.write_back(&mut words, &mut totals);
    searches::history_out(&game, &mut history);
    (seconds, Answer { score: game.saved.0, mv, nodes: game.nodes_count, words, history })
}

/// Seconds of the whole call, the tree's check and the other refusals included, and the answer.
fn desk(r: &Request) -> (f64, Answer) {
    let (mut words, mut history) = (r.table.clone(), r.history.clone());
    let (mut score, mut mv, mut nodes) = (0, 0, 0);
    let start = Instant::now();
    let refusal = unsafe {
        desk_search_root(
            r.tree.as_ptr(), r.tree.len(), words.as_mut_ptr(), words.len(), history.as_mut_ptr(), history.len(),
            r.switches, LIMIT, END, &mut score, &mut mv, &mut nodes,
        )
    };
    let seconds = start.elapsed().as_secs_f64();
    assert_eq!(refusal, 0);
    (seconds, Answer { score, mv, nodes, words, history })
}

/// Seconds of the proved tree check.
fn check(tree: &[u8]) -> f64 {
    let start = Instant::now();
    assert_eq!(unsafe { desk_tree_check(tree.as_ptr(), tree.len(), INF, MAX_PLY) }, 0);
    start.elapsed().as_secs_f64()
}

/// The least of so many rounds of each, since other work on the machine only adds to a round.
fn time(r: &Request, rounds: usize) -> (f64, f64, f64) {
    let mut least = (f64::INFINITY, f64::INFINITY, f64::INFINITY);
    for round in 0..rounds {
        if round % 2 == 0 {
            least.0 = least.0.min(rust(r).0);
            least.1 = least.1.min(desk(r).0);
        } else {
            least.1 = least.1.min(desk(r).0);
            least.0 = least.0.min(rust(r).0);
        }
        least.2 = least.2.min(check(&r.tree));
    }
    least
}

fn line(name: &str, size: usize, width: usize, switches: u8) {
    let r = request(&tree(size, width), switches);
    let (first, ours) = (rust(&r).1, desk(&r).1);
    assert_eq!(first, ours);
    let rounds = (20_000_000 / (first.nodes as usize + 1_000)).clamp(20, 2_000);
    let (text, call, check) = time(&r, rounds);
    let search = call - check;
    let rate = |seconds: f64| first.nodes as f64 / seconds / 1e6;
    println!(
        "| {name} | {size} | {width} | {} | {:.2} | {:.2} | {:.2} | {:.1} us | {:.2} |",
        first.nodes, rate(text), rate(search), text / search, check * 1e6, rate(call)
    );
}

/// The whole program on a full tree: the middle of 400 runs, from its start to its end.
fn program(width: usize) {
    let path = "target/compare/full.tree";
    std::fs::write(path, tree(3_968, width)).unwrap();
    let mut times: Vec<f64> = (0..400)
        .map(|_| {
            let start = Instant::now();
            let input = std::fs::File::open(path).unwrap();
            let done = Command::new("crates/adjudicate/out/adjudicate").stdin(input).output().unwrap();
            assert!(done.stdout.starts_with(b"score "));
            start.elapsed().as_secs_f64() * 1e3
        })
        .collect();
    times.sort_by(f64::total_cmp);
    println!("the program on a full tree of {width} children a node: {:.2} ms", times[200]);
}

/// One search by each side, for a count of instructions (callgrind).
#[inline(never)]
fn once() {
    let r = request(&tree(3_968, 6), NO_TABLE);
    assert_eq!(rust(&r).1, desk(&r).1);
}

pub fn run() {
    if std::env::args().nth(1).as_deref() == Some("once") {
        return once();
    }
    println!("| switches | tree | children | nodes searched | Rust Mn/s | desk Mn/s | ratio | tree check | desk Mn/s with it |");
    println!("|---|---|---|---|---|---|---|---|---|");
    for (name, switches) in [("all on", ALL), ("table off", NO_TABLE), ("all off", NONE)] {
        for width in [3, 6, 16, 35, 62] {
            line(name, 3_968, width, switches);
        }
    }
    for size in [248, 496, 992, 1_984] {
        line("all on", size, 6, ALL);
    }
    program(6);
    program(62);
}
