//! Requests for a comparison, from a seed.
//!
//! usage: gen SEED FIRST COUNT     COUNT requests from number FIRST on
//!        gen bad SEED             a short run that ends in a bad request or a bad step
//!
//! A request depends on the seed and its number alone.
mod faults;
mod request;
mod rng;
mod scripts;
mod searches;
mod trees;

use std::io::{self, BufWriter, Write};

use request::{Entries, Request, Step, Words};
use rng::Rng;

/// How many requests in a row ask for one search with limits 1, 2, 3 and so on.
const SWEEP: u64 = 64;

/// A request of the run. Two of a hundred sweeps are a search under every limit; the requests of the others are each their own.
fn request(seed: u64, number: u64) -> Request {
    let sweep = Rng::new(!seed, number / SWEEP);
    if sweep.chance(2) {
        let mut r = searches::swept(&sweep);
        r.limit = 1 + number % SWEEP;
        return r;
    }
    one(&Rng::new(seed, number))
}

fn one(rng: &Rng) -> Request {
    if rng.below(200) == 0 {
        return searches::reductions(rng);
    }
    match rng.below(100) {
        0..=24 => searches::root_search(rng),
        25..=27 => searches::turned_window(rng),
        28..=29 => searches::steady_score(rng),
        30..=69 => searches::node_search(rng),
        70..=71 => searches::tree_check(rng),
        72 => searches::record(rng),
        73..=88 => damaged(rng),
        89..=92 => scripts::clock(rng),
        93..=96 => scripts::table(rng),
        _ => scripts::history_script(rng),
    }
}

/// A good request of kind 1 to 4 with one fault or more.
fn damaged(rng: &Rng) -> Request {
    let mut r = match rng.below(8) {
        0 | 1 => searches::root_search(rng),
        2 | 3 => searches::node_search(rng),
        4 => searches::record(rng),
        _ => searches::tree_check(rng),
    };
    if r.kind != 3 && rng.chance(60) {
        faults::misplace(rng, &mut r);
    } else {
        faults::damage(rng, &mut r);
    }
    r
}

fn number(word: Option<String>) -> u64 {
    word.and_then(|w| w.parse().ok()).expect("usage: gen SEED FIRST COUNT, or gen bad SEED")
}

/// Some good requests, then one way to end a run, then more that must not be answered.
fn bad_run(rng: &Rng, out: &mut impl Write) {
    for _ in 0..rng.below(3) {
        one(rng).write(out);
    }
    let mut r = one(rng);
    match rng.below(10) {
        0 => r.kind = rng.pick(&[0, 8, 9, 128, 255]),
        1 => {
            let bytes = r.bytes();
            let cut = 1 + rng.below(bytes.len() as u64 - 1) as usize;
            out.write_all(&bytes[..cut]).unwrap();
            return;
        }
        2 => {
            let bytes = r.bytes();
            out.write_all(&bytes[..1 + rng.below(95) as usize]).unwrap();
            return;
        }
        3 => r.tree = vec![0; rng.pick(&[66_049, 70_000])],
        4 => r.table = Words::Zeros(rng.pick(&[131_075, 1 << 31, u32::MAX])),
        5 => r.history = Entries::Zeros(rng.pick(&[8_194, 1 << 31, u32::MAX])),
        6 => {
            r = scripts::clock(rng);
            r.steps = vec![Step { operation: 5, ..Step::default() }; rng.pick(&[4_097, 65_535])];
        }
        7 => {
            r.kind = rng.range(1, 4) as u8;
            r.steps = vec![Step { operation: 1, ..Step::default() }];
        }
        8 => {
            r = scripts::table(rng);
            let h = rng.pick(&[3, 4, 255, 256, 257, 65_535]);
            let at = rng.below(r.steps.len() as u64 + 1) as usize;
            r.steps.insert(at, Step { operation: 2, h, ..Step::default() });
        }
        _ => {
            r = match rng.below(3) {
                0 => scripts::clock(rng),
                1 => scripts::table(rng),
                _ => scripts::history_script(rng),
            };
            let operation = rng.pick(&[0, 9, 255, if r.kind == 7 { 4 } else if r.kind == 5 { 8 } else { 10 }]);
            let at = rng.below(r.steps.len() as u64 + 1) as usize;
            r.steps.insert(at, Step { operation, ..Step::default() });
        }
    }
    r.write(out);
    one(rng).write(out);
}

fn main() {
    let mut args = std::env::args().skip(1);
    let mut out = BufWriter::with_capacity(1 << 20, io::stdout().lock());
    let first = args.next();
    if first.as_deref() == Some("bad") {
        let seed = number(args.next());
        bad_run(&Rng::new(seed, u64::MAX), &mut out);
    } else {
        let (seed, from, count) = (number(first), number(args.next()), number(args.next()));
        for i in from..from + count {
            request(seed, i).write(&mut out);
        }
    }
    out.flush().unwrap();
}
