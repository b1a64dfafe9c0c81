//! A move: its 16 bits, and, where it was taken from the tree, the child that
//! it leads to and that child's quiet flag. A move that was read from the table
//! has bits alone; it is looked up among the children before it is played.
use crate::square::Square;

#[derive(Copy, Clone, Debug)]
pub struct PieceMove {
    bits: u16,
    quiet: bool,
    child: usize,
}

impl PieceMove {
    pub fn new_null() -> PieceMove {
        PieceMove::from_u16(0)
    }

    pub fn from_u16(bits: u16) -> PieceMove {
        PieceMove { bits, quiet: false, child: 0 }
    }

    pub fn to_child(bits: u16, quiet: bool, child: usize) -> PieceMove {
        PieceMove { bits, quiet, child }
    }

    pub fn to_u16(self) -> u16 {
        self.bits
    }

    pub fn child(self) -> usize {
        self.child
    }

    pub fn from(self) -> Square {
        (self.bits / 1024) as Square
    }

    pub fn to(self) -> Square {
        (self.bits / 16 % 64) as Square
    }

    pub fn is_null(self) -> bool {
        self.bits == 0
    }

    pub fn is_quiet(self) -> bool {
        self.quiet
    }
}
