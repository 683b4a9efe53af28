//! The original and the adapter, asked the same through the interfaces' traits.
//!
//!     compare random SEED CALLS     random calls, on two directories that are swapped now and then
//!     compare killed SEED KILLS     a process that updates through the adapter, killed at any moment
mod call;
mod disk;
mod killed;
mod random;
mod side;

/// The stand-in's futures are ready when they are first polled.
#[cfg(not(feature = "real"))]
pub use tokio::block_on;

#[cfg(feature = "real")]
pub fn block_on<F: Future>(future: F) -> F::Output {
    static RUNTIME: std::sync::LazyLock<tokio::runtime::Runtime> = std::sync::LazyLock::new(|| tokio::runtime::Runtime::new().unwrap());
    RUNTIME.block_on(future)
}

use std::{env, path::PathBuf, process::ExitCode};

/// splitmix64
pub struct Random(u64);

impl Random {
    pub fn new(seed: u64, case: u64) -> Random {
        let mut random = Random(seed);
        random.0 = random.next() ^ case.wrapping_mul(0x9E37_79B9_7F4A_7C15);
        random
    }
    pub fn next(&mut self) -> u64 {
        self.0 = self.0.wrapping_add(0x9E37_79B9_7F4A_7C15);
        let z = (self.0 ^ (self.0 >> 30)).wrapping_mul(0xBF58_476D_1CE4_E5B9);
        let z = (z ^ (z >> 27)).wrapping_mul(0x94D0_49BB_1331_11EB);
        z ^ (z >> 31)
    }
    pub fn below(&mut self, n: usize) -> usize {
        (self.next() % n as u64) as usize
    }
    pub fn one_in(&mut self, n: usize) -> bool {
        self.below(n) == 0
    }
    pub fn pick<T: Copy>(&mut self, from: &[T]) -> T {
        from[self.below(from.len())]
    }
    pub fn bytes(&mut self, most: usize) -> Vec<u8> {
        (0..self.below(most + 1)).map(|_| self.next() as u8).collect()
    }
}

/// A folder of its own, in memory where the system has such a file system.
pub fn folder(name: &str) -> PathBuf {
    let memory = PathBuf::from("/dev/shm");
    let above = if memory.is_dir() { memory } else { env::temp_dir() };
    let folder = above.join(format!("cda-compare-{}-{name}", std::process::id()));
    let _ = std::fs::remove_dir_all(&folder);
    std::fs::create_dir(&folder).unwrap();
    folder
}

fn main() -> ExitCode {
    let words: Vec<String> = env::args().skip(1).collect();
    let number = |word: &String| word.parse::<u64>().expect("a number");
    let words: Vec<&str> = words.iter().map(String::as_str).collect();
    match words[..] {
        ["random", seed, calls] => random::run(number(&seed.into()), number(&calls.into())),
        ["killed", seed, kills] => killed::run(number(&seed.into()), number(&kills.into())),
        ["victim", folder, seed, from] => killed::victim(folder, number(&seed.into()), number(&from.into())),
        _ => {
            eprintln!("usage: compare random SEED CALLS | compare killed SEED KILLS");
            return ExitCode::from(64);
        }
    }
    ExitCode::SUCCESS
}
