"""Makes the ported Rust files from the given text, by listed edits only.

usage: port.py TEXT_FOLDER OUT_FOLDER

Each edit is (file, times, old, new): `old` must stand in the file exactly
`times` times, or the run ends with status 1. A file without an edit is taken
as it is.
"""
import sys
from pathlib import Path

# Documents 000 to 004, common.rs, and the files that common.rs imports.
FILES = [
    "search", "transposition_table", "transposition", "history", "clock",
    "common", "piece", "square", "bitboard", "board",
]

EDITS = [
    # INF, MAX_PLY and HH_MAX become settings. The constants INF and HH_MAX go,
    # so that a use which no edit met would not compile. MAX_PLY stays as the
    # size of arrays (128 is the greatest setting).
    ("common", 1, "pub const INF: Score = 29999;",
                  "pub use crate::settings::{inf, max_ply, hh_max};"),
    ("common", 1, "pub const HH_MAX: Score = 16 << 10;\n", ""),
    ("search", 1, "let mut alpha = -INF;", "let mut alpha = -inf();"),
    ("search", 1, "let beta = INF;", "let beta = inf();"),
    ("search", 1, "INF - (MAX_PLY as Score)", "inf() - (max_ply() as Score)"),
    ("search", 1, "INF - MAX_PLY as Score", "inf() - max_ply() as Score"),
    ("search", 1, "-INF + (ply as Score)", "-inf() + (ply as Score)"),
    ("search", 1, "ply >= MAX_PLY", "ply >= max_ply()"),
    ("history", 3, "HH_MAX as i32", "hh_max() as i32"),
    ("history", 1, "const HH_BONUS_CLAMP: Score = HH_MAX / 4;\n", ""),
    ("history", 1, "HH_BONUS_CLAMP as i32", "(hh_max() / 4) as i32"),

    # The five switches that the stand-in can't turn from outside.
    ("search", 1, "if eval < alpha - DP_MARGIN {",
                  "if self.switches.delta && eval < alpha - DP_MARGIN {"),
    ("search", 1, "if rfp_allowed {",
                  "if self.switches.reverse_futility && rfp_allowed {"),
    ("search", 1, "if fp_allowed && depth < 6 {",
                  "if self.switches.futility && fp_allowed && depth < 6 {"),
    ("search", 1, "if lmr_allowed {",
                  "if self.switches.late_move && lmr_allowed {"),
    ("search", 1, "if iid_allowed {",
                  "if self.switches.inner_deepening && iid_allowed {"),

    # The root search tells the score and depth of the last saved move, too.
    ("search", 1, "best_score = best_scores[depth as usize];",
                  "best_score = best_scores[depth as usize];\n"
                  "                self.saved = (best_score, depth);"),

    # The probe fills and reads fields that are private in the text.
    ("transposition", 1, "    hash: AtomicU64,\n    data: AtomicU64\n",
                         "    pub hash: AtomicU64,\n    pub data: AtomicU64\n"),
    ("transposition_table", 1, "    entries: Arc<SharedTable>,\n    age: Arc<AtomicU8>,\n",
                               "    pub entries: Arc<SharedTable>,\n    pub age: Arc<AtomicU8>,\n"),
    ("transposition_table", 1, "    stats_lookups: u64,\n    stats_inserts: u64,\n"
                               "    stats_hits : u64,\n    stats_collisions: u64\n",
                               "    pub stats_lookups: u64,\n    pub stats_inserts: u64,\n"
                               "    pub stats_hits : u64,\n    pub stats_collisions: u64\n"),
    ("transposition_table", 1, "    inner: Box<[Transposition]>,\n",
                               "    pub inner: Box<[Transposition]>,\n"),
    ("clock", 1, "    moves_level: u16,\n    moves_remaining: u16,\n"
                 "    time_remaining: u64,\n    time_increment: u16,\n"
                 "    last_nodes_count: u64,\n    is_finished: Arc<AtomicBool>,\n",
                 "    pub moves_level: u16,\n    pub moves_remaining: u16,\n"
                 "    pub time_remaining: u64,\n    pub time_increment: u16,\n"
                 "    pub last_nodes_count: u64,\n    pub is_finished: Arc<AtomicBool>,\n"),
]


def apply(name, text):
    for file, times, old, new in EDITS:
        if file != name:
            continue
        found = text.count(old)
        if found != times:
            sys.exit(f"port: {name}: {old!r} stands {found} times, not {times}")
        text = text.replace(old, new)
    return text


def main():
    source, out = Path(sys.argv[1]), Path(sys.argv[2])
    unknown = {e[0] for e in EDITS} - set(FILES)
    if unknown:
        sys.exit(f"port: edits of files that are not ported: {sorted(unknown)}")
    for name in FILES:
        text = (source / f"src--src--{name}.rs.txt").read_text()
        (out / f"{name}.rs").write_text(apply(name, text))


if __name__ == "__main__":
    main()
