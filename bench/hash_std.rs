// The same keys as `crates/bench/src/objects.rt`, in std's HashMap: rustc -O hash_std.rs && ./hash_std
use std::collections::HashMap;
use std::time::Instant;

const PAIRS: u32 = 1_000_000;

fn scattered(k: u32) -> i64 {
    i64::from(k.wrapping_mul(2_654_435_761))
}

fn main() {
    let mut map: HashMap<i64, (i64, i64)> = HashMap::new();
    let begun = Instant::now();
    for k in 0..PAIRS {
        map.insert(scattered(k), (scattered(k), 1));
    }
    let inserting = begun.elapsed().as_nanos() / u128::from(PAIRS);
    let begun = Instant::now();
    let mut found = 0u32;
    for k in 0..PAIRS {
        if map.get(&scattered(k)).is_some() {
            found += 1;
        }
    }
    let looking = begun.elapsed().as_nanos() / u128::from(PAIRS);
    println!("found {found}: inserted in {inserting} ns, looked up in {looking} ns each");
}
