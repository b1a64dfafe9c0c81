use crate::common::Score;
use crate::game::Game;

pub trait Eval {
    fn eval(&self) -> Score;
}

impl Eval for Game {
    fn eval(&self) -> Score {
        self.positions.top().node.eval
    }
}
