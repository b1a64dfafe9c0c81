use crate::color::Color;
use crate::game::Game;
use crate::tree::CHECK;

pub trait Attack {
    fn is_check(&self, side: Color) -> bool;
}

impl Attack for Game {
    /// The flag speaks of the side to move. The other side is never in check,
    /// since every listed move is legal.
    fn is_check(&self, side: Color) -> bool {
        side == self.side() && self.positions.top().node.flags & CHECK != 0
    }
}
