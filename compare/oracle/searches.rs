//! Kinds 1 to 4: searches, tree check, node record.
use std::io::Write;

use crate::answer::{entries_sum, table_ok, totals_and_table};
use crate::game::{Game, Switches};
use crate::limit_clock::LimitClock;
use crate::piece_move_list::PieceMoveList;
use crate::positions::Positions;
use crate::request::Request;
use crate::search::Search;
use crate::settings;
use crate::switched_table::SwitchedTable;
use crate::tree::{place, read_tree, Node};

fn search_settings_ok(r: &Request) -> bool {
    settings::tree_settings_ok(r.inf, r.max_ply)
        && settings::hh_max_ok(r.hh_max)
        && settings::side_ok(r.side as u16)
        && settings::limit_ok(r.limit)
}

fn root_range_ok(r: &Request) -> bool {
    1 <= r.depth && r.depth <= r.end && r.end <= 31
}

fn node_place_ok(r: &Request, nodes: &[Node]) -> bool {
    let (inf, alpha, beta) = (r.inf as i32, r.alpha as i32, r.beta as i32);
    r.node < nodes.len() as u64
        && -inf <= alpha && alpha < beta && beta <= inf
        && (0..=30).contains(&r.depth)
        && r.ply <= r.max_ply as u64
}

/// What both searches take: refusals 6, 1 to 5 and 8, in this order.
fn accept(r: &Request) -> Result<Vec<Node>, u8> {
    if !search_settings_ok(r) {
        return Err(6);
    }
    let nodes = read_tree(&r.tree, r.inf, r.max_ply)?;
    if !table_ok(&r.table) || r.history.len() != 8_192 {
        return Err(8);
    }
    Ok(nodes)
}

fn accept_root(r: &Request) -> Result<Vec<Node>, u8> {
    let nodes = accept(r)?;
    if !root_range_ok(r) {
        return Err(7);
    }
    Ok(nodes)
}

fn accept_node(r: &Request) -> Result<Vec<Node>, u8> {
    let nodes = accept(r)?;
    let hh_max = r.hh_max as i32;
    if r.history.iter().any(|&e| (e as i32).abs() > hh_max) {
        return Err(9);
    }
    if !node_place_ok(r, &nodes) {
        return Err(7);
    }
    Ok(nodes)
}

pub fn history_in(entries: &[i16]) -> [[[i16; 64]; 64]; 2] {
    let mut history = [[[0; 64]; 64]; 2];
    for (to, from) in history.as_flattened_mut().as_flattened_mut().iter_mut().zip(entries) {
        *to = *from;
    }
    history
}

/// A game at `start`, over what the request lends.
pub fn game(r: &Request, nodes: Vec<Node>, start: usize) -> Game {
    settings::set(r.inf, r.max_ply, r.hh_max);
    let is_on = |bit: u8| r.switches >> bit & 1 != 0;
    let side = r.side ^ (nodes[start].level & 1) as u8;
    Game {
        is_debug: false,
        is_search_verbose: false,
        threads_count: 0,
        nodes_count: 0,
        clock: LimitClock::new(r.limit),
        moves: PieceMoveList::new(),
        history: history_in(&r.history),
        positions: Positions::new(nodes[start], side),
        tt: SwitchedTable::lend(is_on(0), &r.table, &r.totals),
        switches: Switches {
            delta: is_on(1),
            reverse_futility: is_on(2),
            futility: is_on(3),
            late_move: is_on(4),
            inner_deepening: is_on(5),
        },
        nodes,
        saved: (0, 0),
    }
}

pub fn history_out(game: &Game, entries: &mut [i16]) {
    entries.copy_from_slice(game.history.as_flattened().as_flattened());
}

/// What was lent, as it stands after the search.
fn give_back(game: &Game, r: &mut Request) {
    game.tt.write_back(&mut r.table, &mut r.totals);
    history_out(game, &mut r.history);
}

fn lent(r: &Request) -> String {
    format!("{} history {:016x}", totals_and_table(&r.totals, &r.table), entries_sum(&r.history))
}

pub fn root(r: &mut Request, out: &mut impl Write) -> bool {
    match accept_root(r) {
        Err(no) => {
            writeln!(out, "root {no} score 0 move 0 depth 0 nodes 0 stopped 0{}", lent(r)).unwrap();
        }
        Ok(nodes) => {
            let mut game = game(r, nodes, 0);
            // The text's own `search`: it zeroes history and the node count,
            // resets the table, starts the clock and calls `search_root`.
            let m = game.search(r.depth..r.end).map_or(0, |m| m.to_u16());
            give_back(&game, r);
            let (score, depth) = game.saved;
            writeln!(
                out,
                "root 0 score {score} move {m} depth {depth} nodes {} stopped {}{}",
                game.nodes_count,
                game.clock.is_stopped() as u8,
                lent(r)
            )
            .unwrap();
        }
    }
    true
}

pub fn node(r: &mut Request, out: &mut impl Write) -> bool {
    match accept_node(r) {
        Err(no) => {
            writeln!(out, "node {no} score 0 nodes 0 stopped 0{}", lent(r)).unwrap();
        }
        Ok(nodes) => {
            let mut game = game(r, nodes, r.node as usize);
            game.clock.start(1);
            let score = game.search_node(r.alpha, r.beta, r.depth, r.ply as usize);
            give_back(&game, r);
            writeln!(
                out,
                "node 0 score {score} nodes {} stopped {}{}",
                game.nodes_count,
                game.clock.is_stopped() as u8,
                lent(r)
            )
            .unwrap();
        }
    }
    true
}

fn checked_tree(r: &Request) -> Result<Vec<Node>, u8> {
    if !settings::tree_settings_ok(r.inf, r.max_ply) {
        return Err(6);
    }
    read_tree(&r.tree, r.inf, r.max_ply)
}

pub fn tree_check(r: &Request, out: &mut impl Write) -> bool {
    writeln!(out, "tree {}", checked_tree(r).err().unwrap_or(0)).unwrap();
    true
}

pub fn record(r: &Request, out: &mut impl Write) -> bool {
    let found = checked_tree(r).and_then(|nodes| {
        if r.node < nodes.len() as u64 { Ok(place(r.node as usize)) } else { Err(7) }
    });
    match found {
        Err(no) => writeln!(out, "record {no}").unwrap(),
        Ok(at) => {
            let hex: String = r.tree[at..at + 16].iter().map(|b| format!("{b:02x}")).collect();
            writeln!(out, "record 0 {hex}").unwrap();
        }
    }
    true
}
