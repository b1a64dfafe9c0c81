//! The stand-in for `Game`: what the text reads of a game, from an accepted tree.
use crate::bitboard::Bitboard;
use crate::color::Color;
use crate::common::{Depth, Score};
use crate::limit_clock::LimitClock;
use crate::piece::{Piece, PAWN};
use crate::piece_move_list::PieceMoveList;
use crate::positions::Positions;
use crate::switched_table::SwitchedTable;
use crate::tree::{Node, PAWN_ENDING};

/// The switches but for the table's, which stands in `SwitchedTable`.
pub struct Switches {
    pub delta: bool,
    pub reverse_futility: bool,
    pub futility: bool,
    pub late_move: bool,
    pub inner_deepening: bool,
}

pub struct Game {
    pub is_debug: bool,
    pub is_search_verbose: bool,
    pub threads_count: usize,
    pub nodes_count: u64,
    pub clock: LimitClock,
    pub moves: PieceMoveList,
    pub history: [[[Score; 64]; 64]; 2],
    pub positions: Positions,
    pub tt: SwitchedTable,
    pub switches: Switches,
    pub nodes: Vec<Node>,
    /// Score and depth of the last move that the root search saved.
    pub saved: (Score, Depth),
}

impl Game {
    pub fn side(&self) -> Color {
        self.positions.top().side
    }

    /// The text asks whether a side has one piece more than it has pawns: that
    /// is answered for the pawn-ending flag, with no pawns and one piece or two.
    pub fn bitboard(&self, piece: Piece) -> &Bitboard {
        let is_pawn_ending = self.positions.top().node.flags & PAWN_ENDING != 0;
        if piece & PAWN != 0 {
            &0b00
        } else if is_pawn_ending {
            &0b01
        } else {
            &0b11
        }
    }
}
