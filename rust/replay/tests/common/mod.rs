//! What the tests over random cases share.

/// The base seed of random cases, which the environment may set; it is printed.
pub fn base_seed() -> u64 {
    let seed = match std::env::var("SLETTREIN_SEED") {
        Ok(text) => text.parse().expect("SLETTREIN_SEED is a number below 2 to the 64th"),
        Err(_) => 1_984,
    };
    println!("SLETTREIN_SEED={seed}");
    seed
}
