//! The tree format, read from the scope paper alone: blocks, records, and the
//! refusals 1 to 5, each over the whole tree before the next.

pub const CHECK: u8 = 1;
pub const QUIET: u8 = 2;
pub const PAWN_ENDING: u8 = 4;
pub const DRAW: u8 = 8;
pub const IMPROVING: u8 = 16;

const BLOCK: usize = 512;
const RECORD: usize = 16;
const RECORDS: usize = 31;

#[derive(Copy, Clone)]
pub struct Node {
    pub first: usize,
    pub count: usize,
    pub flags: u8,
    pub eval: i16,
    pub mv: u16,
    pub hash: u64,
    /// Moves from the root; known once rule 3 holds.
    pub level: usize,
}

fn u16_at(bytes: &[u8], at: usize) -> u16 {
    u16::from_le_bytes([bytes[at], bytes[at + 1]])
}

fn u32_at(bytes: &[u8], at: usize) -> u32 {
    u32::from_le_bytes([bytes[at], bytes[at + 1], bytes[at + 2], bytes[at + 3]])
}

fn read_node(r: &[u8]) -> Node {
    Node {
        first: u16_at(r, 0) as usize,
        count: r[2] as usize,
        flags: r[3],
        eval: u16_at(r, 4) as i16,
        mv: u16_at(r, 6),
        hash: u64::from_le_bytes(r[8..16].try_into().unwrap()),
        level: 0,
    }
}

fn length_ok(tree: &[u8]) -> bool {
    tree.len() % BLOCK == 0 && (1..=128).contains(&(tree.len() / BLOCK))
}

fn check_of(block: &[u8]) -> u32 {
    (0..127).fold(0u32, |sum, i| sum.rotate_left(1).wrapping_add(u32_at(block, 4 * i)))
}

fn block_ok(block: &[u8], number: usize, is_last: bool) -> bool {
    let used = u16_at(block, 502);
    &block[496..500] == b"gtre"
        && u16_at(block, 500) as usize == number
        && (if is_last { (1..=31).contains(&used) } else { used == 31 })
        && block[504..508] == [0; 4]
        && u32_at(block, 508) == check_of(block)
}

fn blocks_ok(tree: &[u8]) -> bool {
    let last = tree.len() / BLOCK - 1;
    tree.chunks_exact(BLOCK).enumerate().all(|(i, b)| block_ok(b, i, i == last))
}

/// Where node `k` stands. All blocks but the last are full.
pub fn place(k: usize) -> usize {
    BLOCK * (k / RECORDS) + RECORD * (k % RECORDS)
}

fn node_count(tree: &[u8]) -> usize {
    let blocks = tree.len() / BLOCK;
    RECORDS * (blocks - 1) + u16_at(tree, BLOCK * (blocks - 1) + 502) as usize
}

/// Rule 3, and the level of each node on the way.
fn breadth_first(nodes: &mut [Node]) -> bool {
    let n = nodes.len();
    let mut start = 1;
    for k in 0..n {
        let Node { first, count, level, .. } = nodes[k];
        if count > 63 || start <= k || first != (if count == 0 { 0 } else { start }) {
            return false;
        }
        for child in start..(start + count).min(n) {
            nodes[child].level = level + 1;
        }
        start += count;
    }
    start == n
}

fn siblings_differ(nodes: &[Node], parent: &Node) -> bool {
    let children = &nodes[parent.first..parent.first + parent.count];
    (1..children.len()).all(|i| children[..i].iter().all(|c| c.mv != children[i].mv))
}

fn fields_ok(nodes: &[Node], inf: i16, max_ply: u16) -> bool {
    let bound = inf as i32 - max_ply as i32;
    nodes.iter().enumerate().all(|(k, node)| {
        node.flags < 32
            && (node.eval as i32).abs() < bound
            && (node.mv == 0) == (k == 0)
            && siblings_differ(nodes, node)
    })
}

fn unused_ok(tree: &[u8], used: usize) -> bool {
    let last_block = tree.len() - BLOCK;
    let in_last = used - RECORDS * (last_block / BLOCK);
    tree[last_block + RECORD * in_last..last_block + RECORD * RECORDS].iter().all(|&b| b == 0)
}

/// The nodes of an accepted tree, or the refusal's number.
pub fn read_tree(tree: &[u8], inf: i16, max_ply: u16) -> Result<Vec<Node>, u8> {
    if !length_ok(tree) {
        return Err(1);
    }
    if !blocks_ok(tree) {
        return Err(2);
    }
    let n = node_count(tree);
    let mut nodes: Vec<Node> = (0..n).map(|k| read_node(&tree[place(k)..place(k) + RECORD])).collect();
    if !breadth_first(&mut nodes) {
        return Err(3);
    }
    if !fields_ok(&nodes, inf, max_ply) || !unused_ok(tree, n) {
        return Err(4);
    }
    if nodes.iter().any(|node| node.level > 100) {
        return Err(5);
    }
    Ok(nodes)
}
