//! Adds 200,000 random keys of 64 bytes and counts each once: the proved stores against Rust's maps.
use std::collections::{BTreeMap, HashMap};
use std::hint::black_box;
use std::time::Instant;

const KEYS: usize = 200_000;
const ROUNDS: usize = 9;

type Key = [u8; 64];

unsafe extern "C" {
    fn table_of_lines(keys: *const u8, len: usize, capacity: usize) -> u64;
    fn tree_of_lines(keys: *const u8, len: usize, capacity: usize) -> u64;
}

/// A plain generator of random numbers (splitmix64).
struct Random(u64);

impl Random {
    fn next(&mut self) -> u64 {
        self.0 = self.0.wrapping_add(0x9e37_79b9_7f4a_7c15);
        let a = (self.0 ^ (self.0 >> 30)).wrapping_mul(0xbf58_476d_1ce4_e5b9);
        let b = (a ^ (a >> 27)).wrapping_mul(0x94d0_49bb_1331_11eb);
        b ^ (b >> 31)
    }
}

fn random_keys(seed: u64) -> Vec<Key> {
    let mut random = Random(seed);
    let mut keys = vec![[0; 64]; KEYS];
    for key in &mut keys {
        for word in key.chunks_exact_mut(8) {
            word.copy_from_slice(&random.next().to_le_bytes());
        }
    }
    keys
}

fn hash_map(keys: &[Key], capacity: usize) -> u64 {
    let mut map: HashMap<Key, u8> = HashMap::with_capacity(capacity);
    for key in keys {
        *map.entry(*key).or_insert(0) += 1;
    }
    keys.iter().map(|key| u64::from(*map.get(key).unwrap_or(&0))).sum()
}

fn tree_map(keys: &[Key], _capacity: usize) -> u64 {
    let mut map: BTreeMap<Key, u8> = BTreeMap::new();
    for key in keys {
        *map.entry(*key).or_insert(0) += 1;
    }
    keys.iter().map(|key| u64::from(*map.get(key).unwrap_or(&0))).sum()
}

fn table(keys: &[Key], capacity: usize) -> u64 {
    let bytes = keys.as_flattened();
    unsafe { table_of_lines(bytes.as_ptr(), bytes.len(), capacity) }
}

fn tree(keys: &[Key], capacity: usize) -> u64 {
    let bytes = keys.as_flattened();
    unsafe { tree_of_lines(bytes.as_ptr(), bytes.len(), capacity) }
}

/// The milliseconds of the best of some rounds, each over keys of its own.
fn best(run: fn(&[Key], usize) -> u64, capacity: usize) -> f64 {
    let mut best = f64::MAX;
    for round in 0..ROUNDS {
        let keys = random_keys(round as u64);
        let start = Instant::now();
        let sum = black_box(run(black_box(&keys), capacity));
        best = best.min(start.elapsed().as_secs_f64() * 1000.0);
        assert_eq!(sum, KEYS as u64, "each key is counted once");
    }
    best
}

fn compare(name: &str, run: fn(&[Key], usize) -> u64, capacity: usize, base: &str, baseline: fn(&[Key], usize) -> u64) {
    let ours = best(run, capacity);
    let theirs = best(baseline, capacity);
    println!("{name} with {capacity} nodes: {ours:.1} ms; {base}: {theirs:.1} ms; ratio {:.2}", ours / theirs);
}

fn main() {
    for capacity in [1 << 18, 300_000, 400_000] {
        compare("table", table, capacity, "HashMap", hash_map);
    }
    compare("tree", tree, KEYS, "BTreeMap", tree_map);
}
