//! Clock, table and history scripts.
use crate::request::{Entries, Request, Step, Words};
use crate::rng::Rng;
use crate::searches::{counters, data_word, history, table_entries};

fn anything(rng: &Rng) -> Step {
    Step {
        operation: 0,
        d: rng.next() as i8,
        h: rng.next() as u16,
        s: rng.next() as i16,
        m: rng.next() as u16,
        a: rng.next(),
        b: rng.next(),
    }
}

fn script(rng: &Rng, kind: u8) -> (Request, usize) {
    let mut r = Request { kind, ..Request::default() };
    r.switches = rng.next() as u8;
    r.inf = rng.next() as i16;
    r.max_ply = rng.next() as u16;
    r.hh_max = rng.next() as i16;
    r.side = rng.next() as u8;
    r.age = rng.pick(&[0, 1, 253, 254, 255, 7]);
    r.limit = rng.next();
    r.counters = counters(rng);
    r.unseen = [rng.next() as u8, rng.next() as u8];
    let steps = match rng.below(100) {
        0 => 0,
        1..=79 => rng.range(1, 20),
        80..=98 => rng.range(10, 120),
        _ if rng.chance(5) => 4_096,
        _ => rng.range(100, 600),
    };
    (r, steps as usize)
}

/// A time that goes on from the last one, or lies at a limit.
pub fn clock(rng: &Rng) -> Request {
    let (mut r, steps) = script(rng, 5);
    let (mut nodes, mut now, mut start) = (0u64, 0u64, 0u64);
    let big = u32::MAX as u64;
    for i in 0..steps {
        let mut s = anything(rng);
        s.operation = if i < 2 && rng.chance(70) {
            i as u8 + 1
        } else {
            rng.pick(&[1, 2, 2, 3, 4, 5, 6, 6, 7, 7, 7, 7, 7, 7, 7, 7])
        };
        s.h = match rng.below(4) {
            0 => 0,
            1 => rng.range(1, 60) as u16,
            2 => rng.pick(&[1, 2, 40, 65_535, 32_767]),
            _ => s.h,
        };
        match s.operation {
            1 | 3 => s.a = rng.pick(&[0, 1, 300_000, big, big + 1, s.a, rng_time(s.a), rng_time(s.b), 5_000]),
            2 => {
                s.a = rng.pick(&[0, 1, 2, 79, 80, 81, 65_535, 65_536, 65_537, s.a, 1 + s.b % 65_535, 1 + s.b % 200]);
                now = rng.pick(&[now, now + 10, 0, u64::MAX - 5, u64::MAX - big, rng_time(s.a)]);
                s.b = now;
                if (1..=65_535).contains(&s.a) {
                    (start, nodes) = (now, 0);
                }
            }
            7 => {
                nodes = match rng.below(10) {
                    0..=4 => nodes.wrapping_add(rng.pick(&[100, 101, 99, 102, 1])),
                    5 | 6 => nodes.wrapping_add(rng.below(300)),
                    7 => nodes.saturating_sub(rng.below(3)),
                    8 => nodes,
                    _ => rng.pick(&[0, s.a, u64::MAX, u64::MAX - 100]),
                };
                s.a = nodes;
                let since = rng.pick(&[0, 1, 7_450, 7_451, big, big + 1, rng.below(400), rng.below(20_000), rng_time(s.b)]);
                s.b = if rng.chance(8) { start.wrapping_sub(1) } else { start.wrapping_add(since) };
            }
            _ => {}
        }
        r.steps.push(s);
    }
    r
}

fn rng_time(x: u64) -> u64 {
    x % (1 << 22)
}

pub fn table(rng: &Rng) -> Request {
    let (mut r, steps) = script(rng, 6);
    let n = if rng.chance(90) { table_entries(rng).min(64) } else { table_entries(rng) };
    // Each line has the sum of the whole table.
    let steps = if n > 64 { steps.min(6) } else { steps };
    let hashes: Vec<u64> = (0..rng.range(1, 12)).map(|_| rng.next()).collect();
    r.table = if rng.chance(40) {
        Words::Zeros(2 * n as u32)
    } else {
        let style = rng.below(3);
        let mut words = vec![0; 2 * n];
        for k in 0..n {
            let data = match style {
                0 => rng.next(),
                1 => data_word(r.age, rng.pick(&[0, 1, 2, 3, 255]), rng.next() as i8, rng.next() as i16,
                               rng.pick(&[0, 1, 65_535, 77]), rng.pick(&[0, 0, 9])),
                _ => 0,
            };
            let hash = rng.pick(&hashes);
            let at = if style == 1 { (hash % n as u64) as usize } else { k };
            (words[2 * at], words[2 * at + 1]) = (hash ^ data, data);
        }
        Words::Sent(words)
    };
    if rng.chance(6) {
        r.table = Words::Sent((0..rng.pick(&[0, 1, 3, 6, 10, 12, 14])).map(|_| rng.next()).collect());
    } else if rng.chance(1) {
        r.table = Words::Zeros(rng.pick(&[131_074, 131_073, 131_070]));
    }
    if rng.chance(30) {
        let limit = 1 << 40;
        r.counters = [(); 5].map(|_| rng.pick(&[0, 1, 3, 7, limit, limit + 1, limit - 1, rng_count(rng)]));
    }
    for _ in 0..steps {
        let mut s = anything(rng);
        s.operation = rng.pick(&[1, 1, 1, 1, 1, 1, 2, 2, 2, 2, 2, 2, 3, 5, 6, 7, 8, 1, 2, 1, 2, 1, 2, 4]);
        s.h %= 3;
        if s.operation != 2 {
            s.h = rng.next() as u16;
        }
        if rng.chance(90) {
            s.a = rng.pick(&hashes);
        }
        if rng.chance(15) {
            s.m = 0;
        }
        if rng.chance(60) {
            s.d = rng.range(-3, 3) as i8;
        }
        r.steps.push(s);
    }
    r
}

fn rng_count(rng: &Rng) -> u64 {
    rng.next() >> rng.range(20, 60)
}

pub fn history_script(rng: &Rng) -> Request {
    let (mut r, steps) = script(rng, 7);
    r.hh_max = match rng.below(12) {
        0..=3 => 16_384,
        4 => 4,
        5 => rng.range(4, 40),
        6 => rng.pick(&[3, 0, -1, 16_385, 32_767, -32_768, -16_384]),
        _ => rng.range(4, 16_384),
    } as i16;
    r.history = history(rng, r.hh_max.clamp(4, 16_384));
    if rng.chance(8) {
        r.history = Entries::Zeros(rng.pick(&[0, 8_191, 8_193, 4_096]));
    } else if rng.chance(6) {
        // The entry may lie just beyond, and the first or the last.
        let most = r.hh_max;
        let mut entries = vec![0; 8_192];
        entries[rng.pick(&[0, 8_191, 5_000])] = rng.pick(&[most.wrapping_add(1), (-1i16).wrapping_sub(most), most, -32_768]);
        r.history = Entries::Sent(entries);
    }
    let few_moves = [rng.next() as u16, rng.next() as u16, 0, 65_535];
    for _ in 0..steps.min(200) {
        let mut s = anything(rng);
        s.operation = rng.pick(&[1, 2, 3, 2, 3]);
        s.h = match rng.below(40) {
            0 => rng.pick(&[2, 256, 257, 65_535]),
            _ => rng.below(2) as u16,
        };
        if rng.chance(70) {
            s.m = rng.pick(&few_moves) ^ rng.below(16) as u16;
        }
        if rng.chance(70) {
            s.d = rng.range(-20, 31) as i8;
        }
        r.steps.push(s);
    }
    r
}
