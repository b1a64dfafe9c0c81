//! Moves are the children of the node at hand.
use crate::game::Game;
use crate::piece_move::PieceMove;
use crate::tree::QUIET;

pub trait PieceMoveGenerator {
    fn next_move(&mut self) -> Option<PieceMove>;
    fn next_capture(&mut self) -> Option<PieceMove>;
    fn make_move(&mut self, m: PieceMove);
    fn undo_move(&mut self, m: PieceMove);
}

impl PieceMoveGenerator for Game {
    fn next_move(&mut self) -> Option<PieceMove> {
        next(self, false)
    }

    fn next_capture(&mut self) -> Option<PieceMove> {
        next(self, true)
    }

    fn make_move(&mut self, m: PieceMove) {
        self.positions.push(self.nodes[m.child()], self.side() ^ 1);
        self.moves.inc();
    }

    fn undo_move(&mut self, _: PieceMove) {
        self.moves.dec();
        self.positions.pop();
    }
}

fn next(game: &mut Game, noisy_only: bool) -> Option<PieceMove> {
    if !game.moves.is_filled() {
        let node = game.positions.top().node;
        let nodes = &game.nodes;
        let children = (node.first..node.first + node.count)
            .map(|k| PieceMove::to_child(nodes[k].mv, nodes[k].flags & QUIET != 0, k))
            .filter(|m| !noisy_only || !m.is_quiet());
        game.moves.fill(children);
    }
    game.moves.next()
}
