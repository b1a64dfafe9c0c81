//! Searches, tree checks and records on accepted trees, with everything in range.
use crate::request::{Entries, Request, Words};
use crate::rng::Rng;
use crate::trees::{encode, mate_beside, random_tree, Node, CHECK};

fn settings(rng: &Rng, r: &mut Request) {
    r.inf = match rng.below(5) {
        0 | 1 => 30_000,
        2 => 1_000,
        3 => rng.range(1_000, 3_000),
        _ => rng.range(1_000, 30_000),
    } as i16;
    r.max_ply = match rng.below(4) {
        0 => 32,
        1 | 2 => 128,
        _ => rng.range(32, 128),
    } as u16;
    r.hh_max = match rng.below(6) {
        0 | 1 => 16_384,
        2 => 4,
        3 => rng.range(4, 100),
        _ => rng.range(4, 16_384),
    } as i16;
    r.side = rng.below(2) as u8;
    r.switches = match rng.below(6) {
        0 | 1 => 0b111111,
        2 => 0,
        3 => 1 << rng.below(6),
        _ => rng.below(64) as u8,
    } | (rng.below(4) << 6) as u8;
    r.age = rng.pick(&[0, 1, 2, 253, 254, 255, rng_byte(rng)]);
    // What nobody looks at holds anything.
    r.unseen = [rng_byte(rng), rng_byte(rng)];
    r.counters = counters(rng);
}

fn rng_byte(rng: &Rng) -> u8 {
    rng.next() as u8
}

pub fn counters(rng: &Rng) -> [u64; 5] {
    let style = rng.below(4);
    [(); 5].map(|_| match style {
        0 => 0,
        1 => rng.below(1000),
        2 => u64::MAX - rng.below(3),
        _ => rng.next(),
    })
}

/// A score that matters: near an evaluation, a window, a mate, a limit.
fn score(rng: &Rng, r: &Request, nodes: &[Node]) -> i16 {
    let near = nodes[rng.below(nodes.len() as u64) as usize].eval as i64;
    let inf = r.inf as i64;
    let s = match rng.below(12) {
        0..=2 => near + rng.range(-3, 3),
        3 => -near + rng.range(-300, 300),
        4 => rng.pick(&[0, 1, -1]),
        5 => rng.range(-inf, inf),
        6 => rng.pick(&[inf, -inf, inf - 1, 1 - inf, inf + 1, -inf - 1]),
        7 => rng.pick(&[-32768, 32767, -32767, 32766]),
        8 => r.alpha as i64 + rng.range(-1, 1),
        9 => r.beta as i64 + rng.range(-1, 1),
        10 => rng.pick(&[1, -1]) * (inf - rng.range(1, 130)),
        _ => rng.range(-32768, 32767),
    };
    s as i16
}

/// Scores beyond INF, where windows turn round and sums wrap.
fn wild_score(rng: &Rng, r: &Request) -> i16 {
    let near = rng.range(0, 3) * rng.pick(&[0, 1, 75, 1_000]);
    let s = match rng.below(4) {
        0 => 32_767 - near,
        1 => near - 32_768,
        2 => rng.pick(&[1, -1]) * (r.inf as i64 + near),
        _ => rng.range(-32_768, 32_767),
    };
    s as i16
}

pub fn table_entries(rng: &Rng) -> usize {
    match rng.below(200) {
        0..=9 => 1,
        10..=29 => 2,
        30..=159 => 1 << rng.below(7),
        160..=197 => 1 << rng.below(10),
        198 => 65_536 >> rng.below(2),
        _ => 1 << rng.below(17),
    }
}

pub fn data_word(age: u8, bound: u8, depth: i8, score: i16, mv: u16, low: u8) -> u64 {
    low as u64
        | (age as u64) << 8
        | (bound as u64) << 16
        | (depth as u8 as u64) << 24
        | (score as u16 as u64) << 32
        | (mv as u64) << 48
}

/// The hint: a child, a child of another node, no move at all, anything.
fn hint(rng: &Rng, nodes: &[Node], node: &Node) -> u16 {
    let (first, count) = (node.first as u64, node.count as u64);
    match rng.below(10) {
        0..=5 if count > 0 => nodes[(first + rng.below(count)) as usize].mv,
        6 | 7 => nodes[rng.below(nodes.len() as u64) as usize].mv,
        8 => 0,
        _ => rng.next() as u16,
    }
}

/// An entry that a lookup of the node finds, or nearly finds.
fn entry(rng: &Rng, r: &Request, nodes: &[Node], node: &Node, is_wild: bool) -> (u64, u64) {
    let age = rng.pick(&[r.age, r.age, r.age.wrapping_add(1), 0, 1, rng_byte(rng)]);
    let bound = rng.pick(&[0, 1, 2, 1, 2, 3, 255, rng_byte(rng)]);
    let depth = match rng.below(5) {
        0 => rng.range(-128, 127),
        1 => rng.range(-3, 3),
        2 => rng.range(-100, -1),
        3 => r.depth as i64 + rng.range(-3, 2),
        _ => rng.range(0, 33),
    } as i8;
    let low = if rng.chance(20) { rng_byte(rng) } else { 0 };
    let score = if is_wild { wild_score(rng, r) } else { score(rng, r, nodes) };
    let data = data_word(age, bound, depth, score, hint(rng, nodes, node), low);
    let hash = if rng.chance(12) { rng.next() } else { node.hash };
    (hash ^ data, data)
}

fn table(rng: &Rng, r: &mut Request, nodes: &[Node]) {
    let n = table_entries(rng);
    if n > 1024 && rng.chance(90) || rng.chance(35) {
        r.table = Words::Zeros(2 * n as u32);
        return;
    }
    let noise = rng.pick(&[0, 0, 0, 50, 100]);
    let mut words = vec![0; 2 * n];
    for w in &mut words {
        if rng.chance(noise) {
            *w = rng.next();
        }
    }
    let wanted = rng.pick(&[5, 20, 60, 100]);
    lend_entries(rng, r, nodes, wanted, &mut words);
    r.table = Words::Sent(words);
}

fn lend_entries(rng: &Rng, r: &Request, nodes: &[Node], wanted: u64, words: &mut [u64]) {
    let n = words.len() as u64 / 2;
    let is_wild = rng.chance(15);
    for node in nodes {
        if rng.chance(wanted) {
            let k = (node.hash % n) as usize;
            (words[2 * k], words[2 * k + 1]) = entry(rng, r, nodes, node, is_wild);
        }
    }
}

pub fn history(rng: &Rng, hh_max: i16) -> Entries {
    if rng.chance(85) {
        return Entries::Zeros(8_192);
    }
    let most = hh_max as i64;
    let style = rng.below(3);
    let entries = (0..8_192).map(|_| match style {
        0 => rng.pick(&[most, -most]),
        1 => rng.range(-most, most),
        _ => rng.pick(&[-most, 0, 0, most, 1, -1]),
    } as i16);
    Entries::Sent(entries.collect())
}

fn window(rng: &Rng, r: &mut Request, nodes: &[Node], start: usize) {
    let inf = r.inf as i64;
    let eval = nodes[start].eval as i64;
    let (a, b) = match rng.below(10) {
        0..=2 => (-inf, inf),
        3 | 4 => { let a = eval + rng.range(-3, 3); (a, a + 1) }
        5 => { let a = eval - 75 * rng.range(-7, 7) + rng.range(-21, 21); (a, a + 1) }
        6 => { let a = rng.range(-inf, inf - 1); (a, a + 1) }
        7 => { let a = rng.range(-120, 120); (a, a + rng.range(1, 3)) }
        8 => { let a = eval + rng.range(-1200, 1200); (a, a + rng.range(1, 2000)) }
        _ => { let a = rng.range(-inf, inf - 1); (a, rng.range(a + 1, inf)) }
    };
    let a = a.clamp(-inf, inf - 1);
    r.alpha = a as i16;
    r.beta = b.clamp(a + 1, inf) as i16;
}

/// Small enough that a request takes some milliseconds: checks and switches that
/// are off can make a search grow without end.
fn limit(rng: &Rng, nodes: &[Node], depth: i64) -> u64 {
    let is_small = nodes.len() <= 12 && depth <= 4 && nodes.iter().all(|n| n.flags & CHECK == 0);
    match rng.below(20) {
        0..=4 => rng.range(1, 12) as u64,
        5..=10 => rng.range(1, 150) as u64,
        11..=17 => rng.range(100, 1_500) as u64,
        18 => rng.range(1_000, 6_000) as u64,
        _ if is_small => 1_000_000_000,
        _ => rng.pick(&[2_000, 10_000]),
    }
}

fn accepted_tree(rng: &Rng, r: &mut Request) -> Vec<Node> {
    settings(rng, r);
    let nodes = random_tree(rng, r.inf - r.max_ply as i16);
    r.tree = encode(&nodes);
    nodes
}

fn anything_in_window(rng: &Rng, r: &mut Request) {
    r.alpha = rng.next() as i16;
    r.beta = rng.next() as i16;
    r.node = rng.next();
    r.ply = rng.next();
}

pub fn root_search(rng: &Rng) -> Request {
    let mut r = Request { kind: 1, ..Request::default() };
    let nodes = accepted_tree(rng, &mut r);
    anything_in_window(rng, &mut r);
    r.depth = if rng.chance(60) { 1 } else { rng.range(1, 31) } as i8;
    r.end = match rng.below(6) {
        0 => r.depth as i64 + 1,
        1..=3 => r.depth as i64 + rng.range(0, 8),
        _ => rng.range(r.depth as i64, 31),
    }.min(31) as i8;
    r.limit = limit(rng, &nodes, r.end as i64);
    table(rng, &mut r, &nodes);
    r.history = history(rng, r.hh_max);
    // The root search doesn't test the entries that it zeroes.
    if rng.chance(4) {
        r.history = Entries::Sent((0..8_192).map(|_| rng.next() as i16).collect());
    }
    r
}

/// A root search whose alpha passes INF at its first depth: a mate leaves a null window, in which
/// a lent entry answers below -INF. The later children are then visited with alpha >= beta.
pub fn turned_window(rng: &Rng) -> Request {
    let mut r = Request { kind: 1, ..Request::default() };
    settings(rng, &mut r);
    r.switches |= 1;
    let mut nodes = mate_beside(rng, r.inf - r.max_ply as i16);
    nodes[2].hash = 1;
    r.tree = encode(&nodes);
    anything_in_window(rng, &mut r);
    r.depth = rng.range(2, 9) as i8;
    r.end = r.depth + rng.range(1, 3) as i8;
    r.limit = rng.pick(&[300, 3_000, 6_000]);
    let mut words = vec![0; 2 << rng.range(4, 9)];
    let wanted = rng.pick(&[0, 0, 30, 100]);
    lend_entries(rng, &r, &nodes, wanted, &mut words);
    let score = -32_767 + rng.range(0, 5) * rng.pick(&[0, 1, 60, 100]);
    let data = data_word(r.age, rng.pick(&[0, 0, 2]), 127, score as i16, nodes[2].mv, 0);
    (words[2], words[3]) = (1 ^ data, data);
    r.table = Words::Sent(words);
    r.history = history(rng, r.hh_max);
    r
}

/// A root search in which every leaf of captures answers the same lent score, seen from the root's
/// side, so that the root's score stays at the edge of a mate over the depths.
pub fn steady_score(rng: &Rng) -> Request {
    let mut r = Request { kind: 1, ..Request::default() };
    let mut nodes = accepted_tree(rng, &mut r);
    for (k, node) in nodes.iter_mut().enumerate() {
        node.hash = k as u64;
        node.flags &= !(8 * rng.chance(80) as u8);
    }
    r.tree = encode(&nodes);
    r.switches |= 1;
    anything_in_window(rng, &mut r);
    r.depth = rng.range(1, 8) as i8;
    r.end = (r.depth + rng.range(4, 12) as i8).min(31);
    r.limit = rng.pick(&[500, 3_000]);
    let edge = r.inf as i64 - r.max_ply as i64 + rng.range(-1, 1);
    let score = edge * rng.pick(&[1, -1]);
    let n = nodes.len().next_power_of_two();
    let mut words = vec![0; 2 * n];
    for (k, node) in nodes.iter().enumerate() {
        let sign = if node.level % 2 == 0 { 1 } else { -1 };
        let data = data_word(r.age, 0, rng.pick(&[-1, -1, 0, 1]), (sign * score) as i16, 16, 0);
        (words[2 * k], words[2 * k + 1]) = (k as u64 ^ data, data);
    }
    r.table = Words::Sent(words);
    r.history = Entries::Zeros(8_192);
    r
}

/// A wide root whose moves all fail low, each child with one child: what each stores shows the
/// depth at which it was visited, so a row of the reductions is seen whole.
pub fn reductions(rng: &Rng) -> Request {
    let mut r = Request { kind: 2, ..Request::default() };
    settings(rng, &mut r);
    r.switches = 0b010001;
    let mut nodes = vec![Node::default(); 127];
    let checks = rng.pick(&[0, 0, 10]);
    for k in 0..nodes.len() {
        let node = &mut nodes[k];
        node.hash = k as u64;
        node.flags = 2 | (k < 64 && rng.chance(if k == 0 { 30 } else { checks })) as u8;
        node.mv = if k == 0 { 0 } else { 16 * k as u16 };
        if k < 64 {
            node.first = if k == 0 { 1 } else { 63 + k as u16 };
            node.count = if k == 0 { 63 } else { 1 };
        }
    }
    r.tree = encode(&nodes);
    r.depth = rng.range(3, 30) as i8;
    r.alpha = 100;
    r.beta = rng.pick(&[101, 101, 200]);
    r.limit = 100_000;
    r.table = Words::Zeros(256);
    r.history = Entries::Zeros(8_192);
    r
}

/// A search of which every limit from 1 on is asked for in turn: quiet moves below a window that they can't reach are counted
/// and skipped, so that the count reaches a limit with no poll after it.
pub fn swept(rng: &Rng) -> Request {
    let mut r = if rng.chance(50) { root_search(rng) } else { node_search(rng) };
    r.switches |= 0b001000;
    let nodes = quiet_tree(rng);
    r.tree = encode(&nodes);
    if r.kind == 1 {
        r.depth = rng.range(1, 2) as i8;
        r.end = r.depth + rng.range(1, 3) as i8;
    } else {
        r.node = 0;
        r.depth = rng.range(1, 5) as i8;
        r.alpha = (nodes[0].eval as i64 + rng.range(-60, 300)) as i16;
        r.beta = r.alpha + rng.pick(&[1, 1, 1, 40]);
    }
    r
}

/// A small tree of mostly quiet moves, with evaluations that fit every setting.
fn quiet_tree(rng: &Rng) -> Vec<Node> {
    let mut nodes = random_tree(rng, 500);
    while nodes.len() > 60 || nodes.len() < 4 {
        nodes = random_tree(rng, 500);
    }
    for node in &mut nodes[1..] {
        node.flags = if rng.chance(85) { 2 } else { node.flags & !(CHECK | 8) };
    }
    nodes
}

pub fn node_search(rng: &Rng) -> Request {
    let mut r = Request { kind: 2, ..Request::default() };
    let nodes = accepted_tree(rng, &mut r);
    let start = if rng.chance(75) { 0 } else { rng.below(nodes.len() as u64) as usize };
    r.node = start as u64;
    r.depth = match rng.below(10) {
        0 => 0,
        1..=6 => rng.range(1, 6),
        7 | 8 => rng.range(3, 14),
        _ => rng.range(0, 30),
    } as i8;
    r.end = rng.next() as i8;
    let most = r.max_ply as i64;
    r.ply = match rng.below(6) {
        0..=2 => 0,
        3 => rng.range(0, most),
        4 => most - rng.range(0, 6),
        _ => rng.range(0, 5),
    } as u64;
    window(rng, &mut r, &nodes, start);
    r.limit = limit(rng, &nodes, r.depth as i64);
    table(rng, &mut r, &nodes);
    r.history = history(rng, r.hh_max);
    r
}

/// Settings, table and history that the kind doesn't take hold anything.
fn ignored(rng: &Rng, r: &mut Request) {
    r.hh_max = rng.next() as i16;
    r.side = rng_byte(rng);
    r.limit = rng.next();
    r.depth = rng_byte(rng) as i8;
    r.end = rng_byte(rng) as i8;
    r.alpha = rng.next() as i16;
    r.beta = rng.next() as i16;
    r.ply = rng.next();
    if rng.chance(20) {
        r.table = Words::Sent((0..rng.below(20)).map(|_| rng.next()).collect());
        r.history = Entries::Sent((0..rng.below(20)).map(|_| rng.next() as i16).collect());
    }
}

pub fn tree_check(rng: &Rng) -> Request {
    let mut r = Request { kind: 3, ..Request::default() };
    accepted_tree(rng, &mut r);
    ignored(rng, &mut r);
    r.node = rng.next();
    r
}

pub fn record(rng: &Rng) -> Request {
    let mut r = Request { kind: 4, ..Request::default() };
    let nodes = accepted_tree(rng, &mut r);
    ignored(rng, &mut r);
    r.node = rng.below(nodes.len() as u64);
    r
}
