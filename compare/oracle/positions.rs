//! The nodes from the start of the search to the one at hand.
use crate::color::Color;
use crate::common::Score;
use crate::tree::{Node, DRAW, IMPROVING};

pub struct Position {
    pub node: Node,
    pub hash: u64,
    pub side: Color,
    pub null_move_right: bool,
}

pub struct Positions {
    stack: Vec<Position>,
}

impl Positions {
    pub fn new(start: Node, side: Color) -> Positions {
        let mut positions = Positions { stack: Vec::with_capacity(101) };
        positions.push(start, side);
        positions
    }

    pub fn push(&mut self, node: Node, side: Color) {
        // The right to a null move is always absent.
        self.stack.push(Position { node, hash: node.hash, side, null_move_right: false });
    }

    pub fn pop(&mut self) {
        self.stack.pop();
    }

    pub fn top(&self) -> &Position {
        self.stack.last().unwrap()
    }

    pub fn len(&self) -> usize {
        self.stack.len()
    }

    pub fn is_draw(&self) -> bool {
        self.top().node.flags & DRAW != 0
    }

    pub fn is_improving(&self) -> bool {
        self.top().node.flags & IMPROVING != 0
    }

    /// The improving flag is the tree's, so no score is kept.
    pub fn set_score(&mut self, _: Score) {}

    pub fn enable_null_move(&mut self) {
        unreachable!("null move");
    }

    pub fn disable_null_move(&mut self) {
        unreachable!("null move");
    }
}
