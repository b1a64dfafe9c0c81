//! Faults: each makes one thing of a good request wrong, or puts it at its limit.
use crate::request::{Entries, Request, Words};
use crate::rng::Rng;
use crate::trees::{chain, encode, place, seal, Node};

type Fault = fn(&Rng, &mut Request);

/// Numbers in the header and lengths.
const HEADER_FAULTS: &[Fault] = &[
    |g, r| r.inf = g.pick(&[999, 30_001, 0, -1, -30_000, 32_767, -32_768, 1_000, 30_000]),
    |g, r| r.max_ply = g.pick(&[31, 129, 0, 65_535, 32_768, 256 + 64, 32, 128]),
    |g, r| r.hh_max = g.pick(&[3, 16_385, 0, -1, -4, -16_384, 32_767, -32_768, 4]),
    |g, r| r.side = g.pick(&[2, 3, 128, 255]),
    |g, r| r.limit = g.pick(&[0, 1_000_000_001, 1 << 32, 1 << 63, u64::MAX, (1 << 32) + 5]),
    |g, r| r.depth = g.pick(&[-1, 31, 32, 127, -128, 0, 30]),
    |g, r| r.end = g.pick(&[0, 32, 31, 127, -128, -1, r.depth, r.depth.wrapping_sub(1)]),
    |g, r| r.node = absent_node(g, r),
    |g, r| r.ply = r.max_ply as u64 + g.pick(&[0, 1, 2, 1 << 16, 1 << 32, u64::MAX - 200]),
    |g, r| r.ply = g.pick(&[1 << 32, 1 << 16, 1 << 63, u64::MAX, 256]),
    |_, r| r.alpha = r.beta,
    |_, r| (r.alpha, r.beta) = (r.beta, r.alpha),
    |g, r| r.alpha = r.inf.wrapping_neg().wrapping_sub(g.pick(&[0, 1, 2])),
    |g, r| r.beta = r.inf.wrapping_add(g.pick(&[0, 1, 2])),
    |g, r| r.alpha = g.pick(&[-32_768, 32_767, -32_767]),
    |g, r| r.beta = g.pick(&[-32_768, 32_767]),
    |g, r| r.table = Words::Zeros(g.pick(&[0, 1, 3, 5, 6, 7, 10, 12, 131_070, 131_073, 131_074, 65_538, 131_072])),
    |g, r| r.table = Words::Sent((0..g.pick(&[1, 3, 6, 9, 4, 8])).map(|_| g.next()).collect()),
    |g, r| r.history = Entries::Zeros(g.pick(&[0, 1, 64, 4_096, 8_191, 8_193])),
    |g, r| r.history = Entries::Sent((0..g.pick(&[1, 8_191, 8_193])).map(|_| g.next() as i16).collect()),
    |g, r| history_entry(g, r),
];

fn absent_node(g: &Rng, r: &Request) -> u64 {
    let n = node_count(&r.tree);
    g.pick(&[n, n + 1, n - 1, 1 << 12, 1 << 16, 1 << 32, 1 << 63, u64::MAX, n + (1 << 32)])
}

fn node_count(tree: &[u8]) -> u64 {
    let blocks = (tree.len() / 512).max(1) as u64;
    let at = 512 * (blocks as usize - 1) + 502;
    let used = if tree.len() >= at + 2 { tree[at] as u64 } else { 1 };
    (31 * (blocks - 1) + used).max(1)
}

/// One entry just beyond HH_MAX, or exactly at it.
fn history_entry(g: &Rng, r: &mut Request) {
    let mut entries = match &r.history {
        Entries::Sent(e) if e.len() == 8_192 => e.clone(),
        _ => vec![0; 8_192],
    };
    let hh = r.hh_max;
    let k = g.pick(&[0, 8_191, 4_096, 4_095, 100]);
    entries[k] = g.pick(&[hh.wrapping_add(1), (-1i16).wrapping_sub(hh), hh, hh.wrapping_neg(), -32_768, 32_767]);
    r.history = Entries::Sent(entries);
}

/// Lengths and block tails. The checks are made right after these, but for `wrong_check`.
const BLOCK_FAULTS: &[Fault] = &[
    |g, r| r.tree = vec![0; g.pick(&[0, 1, 511, 513, 512, 1_024, 66_048, 66_047])],
    |g, r| { let n = g.pick(&[1, 2, 16, 256, 511]); r.tree.truncate(r.tree.len().saturating_sub(n)) },
    |g, r| { let n = r.tree.len().min(66_048 - 512) + g.pick(&[1, 256, 511, 512]); r.tree.resize(n, 0) },
    |g, r| change(g, r, 496, 4),
    |g, r| change(g, r, 500, 2),
    |g, r| change(g, r, 502, 2),
    |g, r| used_count(g, r),
    |g, r| change(g, r, 504, 4),
    |_, r| repeat_last_block(r),
];

/// Changes a bit of a block's tail.
fn change(g: &Rng, r: &mut Request, at: u64, width: u64) {
    let blocks = r.tree.len() as u64 / 512;
    if blocks > 0 {
        let byte = 512 * g.below(blocks) + at + g.below(width);
        r.tree[byte as usize] ^= 1 << g.below(8);
    }
}

fn used_count(g: &Rng, r: &mut Request) {
    let blocks = r.tree.len() / 512;
    if blocks > 0 {
        let at = 512 * g.pick(&[0, blocks - 1]) + 502;
        let used = g.pick(&[0u16, 1, 30, 31, 32, 256 + 31, 65_535]);
        r.tree[at..at + 2].copy_from_slice(&used.to_le_bytes());
    }
}

fn repeat_last_block(r: &mut Request) {
    let n = r.tree.len();
    if n >= 512 && n % 512 == 0 && n < 66_048 {
        r.tree.extend_from_within(n - 512..);
    }
}

fn wrong_check(g: &Rng, r: &mut Request) {
    let blocks = r.tree.len() as u64 / 512;
    if blocks > 0 {
        let byte = 512 * g.below(blocks) + g.pick(&[508, 509, 510, 511, 8, 495]);
        r.tree[byte as usize] ^= 1 << g.below(8);
    }
}

/// Records: rules 3 and 4.
const RECORD_FAULTS: &[Fault] = &[
    |g, r| at_record(g, r, |g, b| b[0] = b[0].wrapping_add(g.pick(&[1, 255]))),
    |g, r| at_record(g, r, |g, b| b[1] ^= 1 << g.below(8)),
    |g, r| at_record(g, r, |_, b| { b[0] = 0; b[1] = 0 }),
    |g, r| at_record(g, r, |g, b| b[2] = b[2].wrapping_add(g.pick(&[1, 255]))),
    |g, r| at_record(g, r, |g, b| b[2] = g.pick(&[0, 63, 64, 65, 127, 128, 255])),
    |g, r| at_record(g, r, |g, b| b[3] |= g.pick(&[32, 64, 128])),
    |g, r| evaluation(g, r),
    |g, r| at_record(g, r, |_, b| { b[6] = 0; b[7] = 0 }),
    |g, r| at_record(g, r, |g, b| { b[6] = g.next() as u8; b[7] = g.next() as u8 }),
    |g, r| root_move(g, r),
    |g, r| equal_siblings(g, r),
    |g, r| equal_siblings(g, r),
    |g, r| unused_record(g, r),
    |g, r| unused_record(g, r),
    |g, r| deep_chain(g, r),
    |g, r| wide_family(g, r),
    |g, r| swapped_counts(g, r),
    |g, r| swapped_counts(g, r),
];

fn at_record(g: &Rng, r: &mut Request, edit: fn(&Rng, &mut [u8])) {
    let n = node_count(&r.tree);
    let k = if g.chance(30) { g.pick(&[0, n - 1]) } else { g.below(n) };
    let at = place(k as usize);
    if at + 16 <= r.tree.len() {
        edit(g, &mut r.tree[at..at + 16]);
    }
}

/// At the limit and just inside of it.
fn evaluation(g: &Rng, r: &mut Request) {
    let bound = (r.inf as i32 - r.max_ply as i32) as i16;
    let value = g.pick(&[bound, -bound, bound - 1, 1 - bound, bound + 1, -32_768, 32_767, -bound - 1]);
    let k = g.below(node_count(&r.tree)) as usize;
    if let Some(b) = r.tree.get_mut(place(k) + 4..place(k) + 6) {
        b.copy_from_slice(&value.to_le_bytes());
    }
}

fn root_move(g: &Rng, r: &mut Request) {
    if r.tree.len() >= 16 {
        r.tree[g.pick(&[6, 7])] = g.pick(&[1, 16, 128]);
    }
}

/// Gives a node the move of another sibling; from there also a move that differs in one low bit.
fn equal_siblings(g: &Rng, r: &mut Request) {
    let n = node_count(&r.tree) as usize;
    for _ in 0..20 {
        let at = place(g.below(n as u64) as usize);
        let Some(b) = r.tree.get(at..at + 3) else { return };
        let (first, count) = (b[0] as usize + 256 * b[1] as usize, b[2] as u64);
        if count < 2 {
            continue;
        }
        let (i, j) = (g.below(count) as usize, g.below(count) as usize);
        let (from, to) = (place(first + i) + 6, place(first + j) + 6);
        if i == j || from + 2 > r.tree.len() || to + 2 > r.tree.len() {
            continue;
        }
        r.tree.copy_within(from..from + 2, to);
        if g.chance(20) {
            r.tree[to + g.below(2) as usize] ^= 1 << g.below(8);
        }
        return;
    }
}

fn unused_record(g: &Rng, r: &mut Request) {
    let n = node_count(&r.tree) as usize;
    let blocks = r.tree.len() / 512;
    let last = 512 * blocks.saturating_sub(1) + 496;
    let from = place(n);
    if blocks > 0 && from < last && last <= r.tree.len() {
        let at = g.pick(&[from, last - 1, from + g.below((last - from) as u64) as usize]);
        r.tree[at] = 1 << g.below(8);
    }
}

fn deep_chain(g: &Rng, r: &mut Request) {
    let moves = g.pick(&[99, 100, 101, 101, 102, 130, 300]);
    r.tree = encode(&chain(g, moves));
}

/// 63 children or more, everything else in order.
fn wide_family(g: &Rng, r: &mut Request) {
    let above = g.below(3) as usize;
    let mut nodes = chain(g, above);
    let count = g.pick(&[63, 64, 64, 65, 128, 255]);
    nodes[above].first = above as u16 + 1;
    nodes[above].count = count;
    for mv in 1..=count as u16 {
        nodes.push(Node { mv, ..Node::default() });
    }
    r.tree = encode(&nodes);
}

/// Two nodes change their counts and all first children follow: the total is right, but
/// a node's children may begin at the node itself or above it.
fn swapped_counts(g: &Rng, r: &mut Request) {
    let n = node_count(&r.tree) as usize;
    if place(n - 1) + 16 > r.tree.len() {
        return;
    }
    let mut counts: Vec<u8> = (0..n).map(|k| r.tree[place(k) + 2]).collect();
    let i = if g.chance(50) { 0 } else { g.below(n as u64) as usize };
    let j = if g.chance(50) { (i + 1).min(n - 1) } else { g.below(n as u64) as usize };
    counts.swap(i, j);
    let mut start = 1u16;
    for (k, &count) in counts.iter().enumerate() {
        let first = if count == 0 { 0 } else { start };
        r.tree[place(k)..place(k) + 2].copy_from_slice(&first.to_le_bytes());
        r.tree[place(k) + 2] = count;
        start += count as u16;
    }
}

/// One fault, often a second, of the kinds that `r` takes or ignores.
pub fn damage(g: &Rng, r: &mut Request) {
    let count = if g.chance(65) { 1 } else { g.range(2, 3) };
    let mut is_sealed = true;
    for _ in 0..count {
        match g.below(if r.kind <= 2 { 10 } else { 7 }) {
            0..=3 => (g.pick(RECORD_FAULTS))(g, r),
            4 | 5 => (g.pick(BLOCK_FAULTS))(g, r),
            6 => { is_sealed = g.chance(50); if is_sealed { (g.pick(HEADER_FAULTS))(g, r) } }
            _ => (g.pick(HEADER_FAULTS))(g, r),
        }
    }
    seal(&mut r.tree);
    if !is_sealed {
        wrong_check(g, r);
    }
}

/// Faults outside of the tree alone, for the refusals that come after it.
pub fn misplace(g: &Rng, r: &mut Request) {
    for _ in 0..(if g.chance(70) { 1 } else { 2 }) {
        (g.pick(HEADER_FAULTS))(g, r);
    }
}
