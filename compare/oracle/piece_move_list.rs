//! The moves of each open level: the hint first if it may be played, the rest
//! as stored. Noisy moves have a score above 0, quiet ones 0, as the malus
//! loop of the text expects.
use std::ops::Index;

use crate::common::Score;
use crate::piece_move::PieceMove;

#[derive(Copy, Clone)]
pub struct Scored {
    item: PieceMove,
    score: Score,
}

impl From<Scored> for (PieceMove, Score) {
    fn from(s: Scored) -> (PieceMove, Score) {
        (s.item, s.score)
    }
}

#[derive(Clone)]
struct Level {
    hint: PieceMove,
    is_filled: bool,
    list: Vec<Scored>,
    index: usize,
}

pub struct PieceMoveList {
    levels: Vec<Level>,
    level: usize,
}

impl PieceMoveList {
    pub fn new() -> PieceMoveList {
        let empty = Level {
            hint: PieceMove::new_null(),
            is_filled: false,
            list: Vec::with_capacity(64),
            index: 0,
        };
        // A start and at most 100 moves below it.
        PieceMoveList { levels: vec![empty; 101], level: 0 }
    }

    pub fn inc(&mut self) {
        self.level += 1;
    }

    pub fn dec(&mut self) {
        self.level -= 1;
    }

    pub fn clear_all(&mut self) {
        self.level = 0;
        self.clear();
    }

    pub fn clear(&mut self) {
        let top = &mut self.levels[self.level];
        top.hint = PieceMove::new_null();
        top.is_filled = false;
        top.list.clear();
        top.index = 0;
    }

    /// The text adds only hints.
    pub fn add_move(&mut self, m: PieceMove) {
        self.levels[self.level].hint = m;
    }

    /// Killers are left out.
    pub fn add_killer_move(&mut self, _: PieceMove) {}

    pub fn index(&self) -> usize {
        self.levels[self.level].index
    }

    pub fn is_filled(&self) -> bool {
        self.levels[self.level].is_filled
    }

    /// Takes the playable children as stored; the one that the hint names goes first.
    pub fn fill(&mut self, children: impl Iterator<Item = PieceMove> + Clone) {
        let top = &mut self.levels[self.level];
        let hint = top.hint.to_u16();
        let first = children.clone().filter(|m| m.to_u16() == hint);
        let rest = children.filter(|m| m.to_u16() != hint);
        for item in first.chain(rest) {
            let score = if item.is_quiet() { 0 } else { 1 };
            top.list.push(Scored { item, score });
        }
        top.is_filled = true;
    }

    pub fn next(&mut self) -> Option<PieceMove> {
        let top = &mut self.levels[self.level];
        let m = top.list.get(top.index).map(|s| s.item);
        if m.is_some() {
            top.index += 1;
        }
        m
    }
}

impl Index<usize> for PieceMoveList {
    type Output = Scored;

    fn index(&self, i: usize) -> &Scored {
        &self.levels[self.level].list[i]
    }
}
