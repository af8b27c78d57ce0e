//! The same calls over Rust's own ordered map, for `bench/map`. The first word is how many names are put; the lines tell nanoseconds.
use std::collections::BTreeMap;
use std::ops::Bound;
use std::time::Instant;

/// Names of 20 bytes in no order, by the steps of a xorshift generator.
fn names(count: u64) -> Vec<[u8; 20]> {
    let mut state: u64 = 88_172_645_463_325_252;
    let mut next = || {
        state ^= state << 13;
        state ^= state >> 7;
        state ^= state << 17;
        state.to_be_bytes()
    };
    (0..count)
        .map(|_| {
            let mut name = [0; 20];
            name[..8].copy_from_slice(&next());
            name[8..16].copy_from_slice(&next());
            name[16..].copy_from_slice(&next()[..4]);
            name
        })
        .collect()
}

fn tell(word: &str, start: Instant, count: u64) {
    println!("{word} {count} {}", start.elapsed().as_nanos());
}

fn main() {
    let count = std::env::args().nth(1).and_then(|word| word.parse().ok()).expect("a count");
    let names = names(count);
    let mut map: BTreeMap<[u8; 20], u64> = BTreeMap::new();

    let start = Instant::now();
    let mut told = 0;
    for name in &names {
        map.insert(*name, 1);
        told += 1;
    }
    tell("put", start, told);

    let start = Instant::now();
    let found: u64 = names.iter().filter_map(|name| map.get(name)).sum();
    tell("get", start, found);

    let start = Instant::now();
    let above = |name: &[u8; 20]| map.range((Bound::Excluded(*name), Bound::Unbounded)).next().map(|entry| *entry.1);
    let walked: u64 = names.iter().filter_map(above).sum();
    tell("next", start, walked);

    let start = Instant::now();
    let removed: u64 = names.iter().filter_map(|name| map.remove(name)).sum();
    tell("remove", start, removed);
}
