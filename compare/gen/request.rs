//! A request's fields and its bytes.
use std::io::Write;

#[derive(Default, Clone)]
pub struct Request {
    pub kind: u8,
    pub switches: u8,
    pub inf: i16,
    pub max_ply: u16,
    pub hh_max: i16,
    pub side: u8,
    pub depth: i8,
    pub end: i8,
    pub age: u8,
    pub alpha: i16,
    pub beta: i16,
    pub limit: u64,
    pub node: u64,
    pub ply: u64,
    pub counters: [u64; 5],
    pub tree: Vec<u8>,
    pub table: Words,
    pub history: Entries,
    pub unseen: [u8; 2],
    pub steps: Vec<Step>,
}

/// Sent in full, or only as a length (all zero).
#[derive(Clone)]
pub enum Words {
    Zeros(u32),
    Sent(Vec<u64>),
}

#[derive(Clone)]
pub enum Entries {
    Zeros(u32),
    Sent(Vec<i16>),
}

impl Default for Words {
    fn default() -> Words {
        Words::Zeros(0)
    }
}

impl Default for Entries {
    fn default() -> Entries {
        Entries::Zeros(0)
    }
}

#[derive(Default, Clone)]
pub struct Step {
    pub operation: u8,
    pub d: i8,
    pub h: u16,
    pub s: i16,
    pub m: u16,
    pub a: u64,
    pub b: u64,
}

impl Step {
    fn write(&self, out: &mut Vec<u8>) {
        out.push(self.operation);
        out.push(self.d as u8);
        out.extend(self.h.to_le_bytes());
        out.extend(self.s.to_le_bytes());
        out.extend(self.m.to_le_bytes());
        out.extend(self.a.to_le_bytes());
        out.extend(self.b.to_le_bytes());
    }
}

impl Request {
    pub fn bytes(&self) -> Vec<u8> {
        let mut out = Vec::with_capacity(96 + self.tree.len());
        out.extend([self.kind, self.switches]);
        out.extend(self.inf.to_le_bytes());
        out.extend(self.max_ply.to_le_bytes());
        out.extend(self.hh_max.to_le_bytes());
        out.extend([self.side, self.depth as u8, self.end as u8, self.age]);
        out.extend(self.alpha.to_le_bytes());
        out.extend(self.beta.to_le_bytes());
        for n in [self.limit, self.node, self.ply].iter().chain(&self.counters) {
            out.extend(n.to_le_bytes());
        }
        let (table, no_words) = match &self.table {
            Words::Zeros(n) => (*n, 1),
            Words::Sent(w) => (w.len() as u32, 0),
        };
        let (history, no_entries) = match &self.history {
            Entries::Zeros(n) => (*n, 2),
            Entries::Sent(e) => (e.len() as u32, 0),
        };
        for n in [self.tree.len() as u32, table, history] {
            out.extend(n.to_le_bytes());
        }
        out.extend([no_words | no_entries | self.unseen[0] & 0xFC, self.unseen[1]]);
        out.extend((self.steps.len() as u16).to_le_bytes());
        out.extend(&self.tree);
        if let Words::Sent(words) = &self.table {
            words.iter().for_each(|w| out.extend(w.to_le_bytes()));
        }
        if let Entries::Sent(entries) = &self.history {
            entries.iter().for_each(|e| out.extend(e.to_le_bytes()));
        }
        self.steps.iter().for_each(|s| s.write(&mut out));
        out
    }

    pub fn write(&self, out: &mut impl Write) {
        out.write_all(&self.bytes()).unwrap();
    }
}
