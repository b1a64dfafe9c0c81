//! Requests: a header of 96 bytes and what it announces.
use std::io;

use crate::switched_table::Totals;

pub struct Request {
    pub kind: u8,
    pub switches: u8,
    pub inf: i16,
    pub max_ply: u16,
    pub hh_max: i16,
    pub side: u8,
    /// Depth of a node search, start of a root search.
    pub depth: i8,
    pub end: i8,
    pub alpha: i16,
    pub beta: i16,
    pub limit: u64,
    pub node: u64,
    pub ply: u64,
    pub totals: Totals,
    pub tree: Vec<u8>,
    pub table: Vec<u64>,
    pub history: Vec<i16>,
    pub steps: Vec<Step>,
}

pub struct Step {
    pub operation: u8,
    pub d: i8,
    pub h: u16,
    pub s: i16,
    pub m: u16,
    pub a: u64,
    pub b: u64,
}

pub enum Read {
    End,
    Bad,
    Request(Request),
}

const HEADER: usize = 96;
const STEP: usize = 24;

struct Fields<'a>(&'a [u8]);

impl Fields<'_> {
    fn u8(&self, at: usize) -> u8 {
        self.0[at]
    }

    fn u16(&self, at: usize) -> u16 {
        u16::from_le_bytes(self.0[at..at + 2].try_into().unwrap())
    }

    fn u32(&self, at: usize) -> usize {
        u32::from_le_bytes(self.0[at..at + 4].try_into().unwrap()) as usize
    }

    fn u64(&self, at: usize) -> u64 {
        u64::from_le_bytes(self.0[at..at + 8].try_into().unwrap())
    }
}

/// At most `n` bytes, fewer only where the input ends.
fn take(input: &mut impl io::Read, n: usize) -> Vec<u8> {
    let mut bytes = vec![0; n];
    let mut got = 0;
    while got < n {
        match input.read(&mut bytes[got..]).expect("standard input") {
            0 => break,
            more => got += more,
        }
    }
    bytes.truncate(got);
    bytes
}

fn read_step(bytes: &[u8]) -> Step {
    let f = Fields(bytes);
    Step {
        operation: f.u8(0),
        d: f.u8(1) as i8,
        h: f.u16(2),
        s: f.u16(4) as i16,
        m: f.u16(6),
        a: f.u64(8),
        b: f.u64(16),
    }
}

pub fn read_request(input: &mut impl io::Read) -> Read {
    let header = take(input, HEADER);
    if header.is_empty() {
        return Read::End;
    }
    if header.len() < HEADER {
        return Read::Bad;
    }
    let f = Fields(&header);
    let kind = f.u8(0);
    let (tree, table, history, steps) = (f.u32(80), f.u32(84), f.u32(88), f.u16(94) as usize);
    let is_script = (5..=7).contains(&kind);
    if !(1..=7).contains(&kind)
        || tree > 66_048
        || table > 131_074
        || history > 8_193
        || steps > 4_096
        || (steps > 0 && !is_script)
    {
        return Read::Bad;
    }
    let sent_words = if f.u8(92) & 1 != 0 { 0 } else { table };
    let sent_entries = if f.u8(92) & 2 != 0 { 0 } else { history };
    let length = tree + 8 * sent_words + 2 * sent_entries + STEP * steps;
    let body = take(input, length);
    if body.len() < length {
        return Read::Bad;
    }
    let (tree_bytes, rest) = body.split_at(tree);
    let (word_bytes, rest) = rest.split_at(8 * sent_words);
    let (entry_bytes, step_bytes) = rest.split_at(2 * sent_entries);
    let mut words: Vec<u64> =
        word_bytes.chunks_exact(8).map(|w| u64::from_le_bytes(w.try_into().unwrap())).collect();
    words.resize(table, 0);
    let mut entries: Vec<i16> =
        entry_bytes.chunks_exact(2).map(|e| i16::from_le_bytes(e.try_into().unwrap())).collect();
    entries.resize(history, 0);
    Read::Request(Request {
        kind,
        switches: f.u8(1),
        inf: f.u16(2) as i16,
        max_ply: f.u16(4),
        hh_max: f.u16(6) as i16,
        side: f.u8(8),
        depth: f.u8(9) as i8,
        end: f.u8(10) as i8,
        alpha: f.u16(12) as i16,
        beta: f.u16(14) as i16,
        limit: f.u64(16),
        node: f.u64(24),
        ply: f.u64(32),
        totals: Totals {
            age: f.u8(11),
            lookups: f.u64(40),
            inserts: f.u64(48),
            hits: f.u64(56),
            misses: f.u64(64),
            collisions: f.u64(72),
        },
        tree: tree_bytes.to_vec(),
        table: words,
        history: entries,
        steps: step_bytes.chunks_exact(STEP).map(read_step).collect(),
    })
}
