//! Parts of answers that several kinds share.
use crate::switched_table::Totals;

const FNV_BASIS: u64 = 14695981039346656037;
const FNV_PRIME: u64 = 1099511628211;

fn fnv(sum: u64, bytes: &[u8]) -> u64 {
    bytes.iter().fold(sum, |sum, &b| (sum ^ b as u64).wrapping_mul(FNV_PRIME))
}

pub fn words_sum(words: &[u64]) -> u64 {
    words.iter().fold(FNV_BASIS, |sum, w| fnv(sum, &w.to_le_bytes()))
}

pub fn entries_sum(entries: &[i16]) -> u64 {
    entries.iter().fold(FNV_BASIS, |sum, e| fnv(sum, &e.to_le_bytes()))
}

/// ` age A lookups L inserts I hits H misses X collisions C table T`
pub fn totals_and_table(t: &Totals, words: &[u64]) -> String {
    format!(
        " age {} lookups {} inserts {} hits {} misses {} collisions {} table {:016x}",
        t.age, t.lookups, t.inserts, t.hits, t.misses, t.collisions, words_sum(words)
    )
}

/// `m e E` with m odd, or `0 e 0`. Only finite floats that are not negative are asked for.
pub fn float(x: f64) -> String {
    if x == 0.0 {
        return "0 e 0".into();
    }
    let bits = x.to_bits();
    let exponent = (bits >> 52) as i32;
    let fraction = bits & ((1 << 52) - 1);
    let (m, e) = if exponent == 0 { (fraction, -1074) } else { (fraction | 1 << 52, exponent - 1075) };
    let zeros = m.trailing_zeros();
    format!("{} e {}", m >> zeros, e + zeros as i32)
}

pub fn table_ok(words: &[u64]) -> bool {
    let n = words.len() / 2;
    words.len() % 2 == 0 && n.is_power_of_two() && n <= 65_536
}
