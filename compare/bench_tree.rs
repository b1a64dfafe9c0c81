//! Times the tree check of the proved library beside a plain loop that only adds up the block checks.
//! The loop is the least that any check of a tree has to do, so the ratio says what the other rules cost.
use std::hint::black_box;
use std::time::Instant;

extern "C" {
    // A slice goes as its pointer and its length.
    fn desk_tree_check(tree: *const u8, length: usize, inf: i16, max_ply: u16) -> u8;
}

const BLOCKS: usize = 128;
const NODES: usize = 31 * BLOCKS;

fn proved(tree: &[u8]) -> u8 {
    unsafe { desk_tree_check(tree.as_ptr(), tree.len(), 30000, 128) }
}

fn check_of(block: &[u8]) -> u32 {
    block[..508]
        .chunks_exact(4)
        .fold(0u32, |sum, w| sum.rotate_left(1).wrapping_add(u32::from_le_bytes(w.try_into().unwrap())))
}

fn checks_right(tree: &[u8]) -> bool {
    tree.chunks_exact(512).all(|b| check_of(b).to_le_bytes() == b[508..])
}

/// A full tree of 128 blocks in which each node has `width` children as long as nodes are left.
fn full(width: usize) -> Vec<u8> {
    let mut tree = vec![0u8; 512 * BLOCKS];
    for k in 0..NODES {
        let count = width.min((NODES - 1).saturating_sub(width * k));
        let first = if count == 0 { 0 } else { width * k + 1 };
        let at = 512 * (k / 31) + 16 * (k % 31);
        tree[at..at + 2].copy_from_slice(&(first as u16).to_le_bytes());
        tree[at + 2] = count as u8;
        tree[at + 3] = (k % 32) as u8;
        tree[at + 4..at + 6].copy_from_slice(&((k % 2001) as i16 - 1000).to_le_bytes());
        tree[at + 6..at + 8].copy_from_slice(&(k as u16).to_le_bytes());
        tree[at + 8..at + 16].copy_from_slice(&(k as u64).wrapping_mul(0x9E3779B97F4A7C15).to_le_bytes());
    }
    for (number, block) in tree.chunks_exact_mut(512).enumerate() {
        block[496..500].copy_from_slice(b"gtre");
        block[500..502].copy_from_slice(&(number as u16).to_le_bytes());
        block[502..504].copy_from_slice(&31u16.to_le_bytes());
        let check = check_of(block);
        block[508..].copy_from_slice(&check.to_le_bytes());
    }
    tree
}

/// Microseconds of one call: the least over rounds, since other work on the machine only adds to a round. A round is
/// under two milliseconds, so that most are not interrupted.
fn time(tree: &[u8], repetitions: usize, run: impl Fn(&[u8]) -> bool) -> f64 {
    (0..400)
        .map(|_| {
            let start = Instant::now();
            for _ in 0..repetitions {
                assert!(black_box(run(black_box(tree))));
            }
            start.elapsed().as_secs_f64() * 1e6 / repetitions as f64
        })
        .fold(f64::INFINITY, f64::min)
}

fn main() {
    println!("{:>8} {:>20} {:>20} {:>6}", "children", "tree check", "block checks alone", "ratio");
    for width in [1, 4, 16, 63] {
        let tree = full(width);
        // One child to a node is refused by its depth, after all other rules.
        let answer = if width == 1 { 5 } else { 0 };
        let mut damaged = tree.clone();
        damaged[8] ^= 1;
        assert!(proved(&damaged) == 2 && !checks_right(&damaged));
        let check = time(&tree, 8, |t| proved(t) == answer);
        let plain = time(&tree, 32, checks_right);
        let rate = |us: f64| format!("{:.1} us {:.0} MB/s", us, tree.len() as f64 / us);
        println!("{width:>8} {:>20} {:>20} {:>6.1}", rate(check), rate(plain), check / plain);
    }
}
