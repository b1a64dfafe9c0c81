//! The oracle: the Rust text over a tree-backed stand-in for `Game`, behind the
//! probe's request format. The modules of the first group are made from the
//! text by compare/port.py; those of the second are the stand-in.

// `libm` and `branches` are not at hand: their names lead to this crate, which
// has the three functions that the text calls.
extern crate self as libm;
extern crate self as branches;

pub fn log(x: f64) -> f64 {
    x.ln()
}

pub fn round(x: f64) -> f64 {
    x.round()
}

pub fn prefetch_read_data<T, const LOCALITY: i32>(_: &T) {}

macro_rules! lazy_static {
    ($($v:vis static ref $name:ident: $t:ty = $e:expr;)*) => {
        $($v static $name: std::sync::LazyLock<$t> = std::sync::LazyLock::new(|| $e);)*
    };
}

mod bitboard;
mod board;
mod clock;
mod common;
mod history;
mod piece;
mod search;
mod square;
mod transposition;
mod transposition_table;

mod answer;
mod attack;
mod color;
mod eval;
mod game;
mod limit_clock;
mod piece_move;
mod piece_move_generator;
mod piece_move_list;
mod positions;
mod request;
mod scripts;
mod searches;
mod settings;
mod switched_table;
mod tree;

// The benchmark, which has the request generator's trees.
#[cfg(bench)]
mod bench;
#[cfg(bench)]
mod rng;
#[cfg(bench)]
mod trees;

use std::io::{self, BufWriter, Write};

use request::{read_request, Read};

#[cfg(bench)]
fn main() {
    bench::run();
}

#[cfg(not(bench))]
fn main() {
    let mut input = io::BufReader::with_capacity(1 << 20, io::stdin().lock());
    let mut out = BufWriter::with_capacity(1 << 20, io::stdout().lock());
    loop {
        let go_on = match read_request(&mut input) {
            Read::End => false,
            Read::Bad => {
                writeln!(out, "bad request").unwrap();
                false
            }
            Read::Request(mut r) => match r.kind {
                1 => searches::root(&mut r, &mut out),
                2 => searches::node(&mut r, &mut out),
                3 => searches::tree_check(&r, &mut out),
                4 => searches::record(&r, &mut out),
                5 => scripts::clock(&r, &mut out),
                6 => scripts::table(&mut r, &mut out),
                _ => scripts::history(&mut r, &mut out),
            },
        };
        if !go_on {
            break;
        }
    }
    out.flush().unwrap();
}
