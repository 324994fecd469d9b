//! Numbers from the environment, for the tests with random cases and runs.

use std::env;

const SEED: u64 = 20_240_601;

/// TOVRIDSA_SEED, or the usual seed.
pub fn seed() -> u64 {
    variable("TOVRIDSA_SEED", SEED)
}

/// A number from the environment.
pub fn variable(name: &str, default: u64) -> u64 {
    match env::var(name) {
        Ok(text) => text
            .parse()
            .unwrap_or_else(|_| panic!("{name} is no number: {text}")),
        Err(_) => default,
    }
}
