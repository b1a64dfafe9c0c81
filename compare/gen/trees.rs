//! Random accepted trees of all shapes.
use crate::rng::Rng;

pub const CHECK: u8 = 1;
pub const QUIET: u8 = 2;

#[derive(Clone, Default)]
pub struct Node {
    pub first: u16,
    pub count: u8,
    pub flags: u8,
    pub eval: i16,
    pub mv: u16,
    pub hash: u64,
    pub level: usize,
}

/// How many nodes at most: most trees are small.
fn size(rng: &Rng) -> usize {
    match rng.below(1000) {
        0..=14 => 1,
        15..=199 => rng.range(2, 8) as usize,
        200..=579 => rng.range(5, 60) as usize,
        580..=869 => rng.range(40, 250) as usize,
        870..=984 => rng.range(100, 900) as usize,
        985..=997 => rng.range(600, 3967) as usize,
        _ => 3968,
    }
}

/// The child counts in breadth-first order. Every node below the size has a parent.
fn shape(rng: &Rng, size: usize) -> Vec<Node> {
    let style = rng.below(10);
    let width = rng.range(1, 12);
    let mut nodes = vec![Node::default()];
    let mut k = 0;
    while k < nodes.len() {
        let room = size - nodes.len();
        let is_last_open = k + 1 == nodes.len();
        let wanted = match style {
            0 => 1,                                          // a chain
            1 => 63,                                         // bushy
            2 => 2,
            3 => rng.range(0, width),
            4 => rng.pick(&[0, 0, 0, 1, 2, 63]),
            5 => if is_last_open { width } else { 0 },       // a comb: one child of each family goes on
            6 => rng.pick(&[0, 1, 1, 1, 2]),
            7 => rng.range(0, 5),
            8 => rng.range(4, 4 + width),
            _ => if k == 0 { 63 } else { rng.range(0, 2) },
        } as usize;
        let wanted = if is_last_open { wanted.max(1) } else { wanted };
        let count = if nodes[k].level == 100 { 0 } else { wanted.min(room) };
        add_children(&mut nodes, k, count);
        k += 1;
    }
    nodes
}

fn flags(rng: &Rng, nodes: &mut [Node]) {
    let rates = [0, 5, 20, 50, 80, 100];
    let check = rng.pick(&[0, 0, 5, 20, 50, 100]);
    let quiet = rng.pick(&[0, 20, 50, 50, 80, 80, 100]);
    let pawn = rng.pick(&[0, 0, 5, 50, 100]);
    let draw = rng.pick(&[0, 0, 0, 5, 5, 30]);
    let improving = rng.pick(&rates);
    for node in nodes {
        for (bit, rate) in [check, quiet, pawn, draw, improving].into_iter().enumerate() {
            if rng.chance(rate) {
                node.flags |= 1 << bit;
            }
        }
    }
}

/// Evaluations near each other, near the margins, along a line of play, or at the limits.
fn evaluations(rng: &Rng, nodes: &mut [Node], bound: i16) {
    let most = bound as i64 - 1;
    let style = rng.below(8);
    let spread = rng.pick(&[0, 1, 30, 80, 200, 400, 1000, 2500, 30000]).min(most);
    let base = rng.range(-spread, spread);
    for k in 0..nodes.len() {
        let eval = match style {
            0..=2 => rng.range(-spread, spread),
            // For the side to move: the sign changes with the level.
            3 | 4 => {
                let sign = if nodes[k].level % 2 == 0 { 1 } else { -1 };
                sign * base + rng.range(-80, 80)
            }
            5 => 75 * rng.range(-8, 8) + rng.range(-1, 1),
            6 => rng.pick(&[-most, most, 0, 1 - most, most - 1]),
            _ => if rng.chance(10) { rng.range(-most, most) } else { rng.range(-60, 60) },
        };
        nodes[k].eval = eval.clamp(-most, most) as i16;
    }
}

fn moves(rng: &Rng, nodes: &mut [Node]) {
    let style = rng.below(4);
    for k in 0..nodes.len() {
        let first = nodes[k].first as usize;
        let last = first + nodes[k].count as usize;
        for c in first..last {
            loop {
                let mv = match style {
                    0 => rng.range(1, 80),                 // few squares: history entries are shared
                    1 => 16 * rng.range(1, 4095),
                    2 => rng.range(1, 5) * 1024 + rng.range(0, 127),
                    _ => rng.range(1, 65535),
                } as u16;
                if nodes[first..c].iter().all(|n| n.mv != mv) {
                    nodes[c].mv = mv;
                    break;
                }
            }
        }
    }
}

fn hashes(rng: &Rng, nodes: &mut [Node]) {
    let style = rng.below(8);
    let pool: Vec<u64> = (0..rng.range(1, 8)).map(|_| rng.next()).collect();
    for k in 0..nodes.len() {
        nodes[k].hash = match style {
            0..=3 => rng.next(),
            4 => k as u64,
            5 => rng.pick(&pool),                          // equal hashes
            6 => rng.below(6) * 65536 + rng.below(4),      // one slot for several hashes
            _ => if rng.chance(20) { rng.pick(&pool) } else { rng.next() },
        };
    }
}

pub fn random_tree(rng: &Rng, bound: i16) -> Vec<Node> {
    // Lines of up to 100 moves need their own chance: few trees grow so deep.
    let mut nodes = if rng.chance(3) {
        let moves = rng.pick(&[100, 100, 99, 64, 40]);
        chain(rng, moves)
    } else {
        let size = size(rng);
        shape(rng, size)
    };
    fill(rng, &mut nodes, bound);
    nodes
}

/// A root whose first child is mated at once and whose other children go deep.
pub fn mate_beside(rng: &Rng, bound: i16) -> Vec<Node> {
    let size = rng.range(60, 700) as usize;
    let mut nodes = vec![Node::default()];
    let mut k = 0;
    while k < nodes.len() {
        let wanted = match k {
            0 => rng.range(3, 5),
            1 => 0,
            _ => rng.range(1, 3),
        } as usize;
        let room = size - nodes.len();
        add_children(&mut nodes, k, wanted.min(room));
        k += 1;
    }
    fill(rng, &mut nodes, bound);
    nodes[1].flags = CHECK | QUIET;
    nodes
}

fn add_children(nodes: &mut Vec<Node>, k: usize, count: usize) {
    if count > 0 {
        nodes[k].first = nodes.len() as u16;
        nodes[k].count = count as u8;
    }
    let level = nodes[k].level + 1;
    for _ in 0..count {
        nodes.push(Node { level, ..Node::default() });
    }
}

fn fill(rng: &Rng, nodes: &mut [Node], bound: i16) {
    flags(rng, nodes);
    evaluations(rng, nodes, bound);
    moves(rng, nodes);
    hashes(rng, nodes);
}

/// A chain of `moves` moves, which may be too long.
pub fn chain(rng: &Rng, moves: usize) -> Vec<Node> {
    let mut nodes = vec![Node::default(); moves + 1];
    for k in 0..moves {
        nodes[k].first = k as u16 + 1;
        nodes[k].count = 1;
        nodes[k + 1].level = k + 1;
        nodes[k + 1].mv = rng.range(1, 65535) as u16;
    }
    nodes
}

pub fn check_of(block: &[u8]) -> u32 {
    block[..508]
        .chunks_exact(4)
        .fold(0, |sum: u32, w| sum.rotate_left(1).wrapping_add(u32::from_le_bytes(w.try_into().unwrap())))
}

/// Writes the checks of all whole blocks.
pub fn seal(bytes: &mut [u8]) {
    for block in bytes.chunks_exact_mut(512) {
        let check = check_of(block);
        block[508..].copy_from_slice(&check.to_le_bytes());
    }
}

pub fn place(k: usize) -> usize {
    512 * (k / 31) + 16 * (k % 31)
}

pub fn encode(nodes: &[Node]) -> Vec<u8> {
    let blocks = nodes.len().div_ceil(31);
    let mut bytes = vec![0; 512 * blocks];
    for (k, node) in nodes.iter().enumerate() {
        let r = &mut bytes[place(k)..place(k) + 16];
        r[0..2].copy_from_slice(&node.first.to_le_bytes());
        r[2] = node.count;
        r[3] = node.flags;
        r[4..6].copy_from_slice(&node.eval.to_le_bytes());
        r[6..8].copy_from_slice(&node.mv.to_le_bytes());
        r[8..16].copy_from_slice(&node.hash.to_le_bytes());
    }
    for b in 0..blocks {
        let used = (nodes.len() - 31 * b).min(31) as u16;
        let tail = &mut bytes[512 * b + 496..512 * b + 504];
        tail[0..4].copy_from_slice(b"gtre");
        tail[4..6].copy_from_slice(&(b as u16).to_le_bytes());
        tail[6..8].copy_from_slice(&used.to_le_bytes());
    }
    seal(&mut bytes);
    bytes
}
