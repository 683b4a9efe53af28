//! Build script of the two crates whose modules are the original's files. It checks each file's SHA-256 and writes
//! OUT_DIR/original.rs, which declares the files, where they stand and unchanged, as modules.
//!
//! CDA_SRC names their folder: a checkout of the original, or the flat folder in which `cda-storage/src/wal.rs` is
//! called `src--cda-storage--src--wal.rs.txt`. The default is `../shared/docs/src` beside the repository.
use std::{env, fs, path::PathBuf};

const FILES: [(&str, &str, &str); 9] = [
    ("cda-interfaces", "storage_api/collection", "840389da7e1532115b10d571d1c6a9d8afca8fa0eb6077e53a0bda0bc1fbc900"),
    ("cda-interfaces", "storage_api/error", "c36c86f9e8fd1b038722823d313137159d1a83662bd5253ba224f48c15540da0"),
    ("cda-interfaces", "storage_api/io", "0e8da6678853aaad89e858b5cf25028f3a527fd4ec4cc889da2fbbfb9beb935c"),
    ("cda-interfaces", "storage_api/transaction", "20152b929c9811d50888208bcbfabc8b70a30f9cbf2222700759fde0d59dc6af"),
    ("cda-storage", "local_collection", "b2332b15ca25f8cacaca914db03cf63ef64a37ab1aa8c2fee9cf031fb0120615"),
    ("cda-storage", "local_storage", "a07e8e814959737ab404a8e5782063baca8d772f193bc539d06d5c86648f4257"),
    ("cda-storage", "paths", "0f5a97ca2ea867d6438d72c8ddc2dc9683223b9dc0dafc1efd006432f589cf3f"),
    ("cda-storage", "recovery", "7620aef98dfacadbf1b23fb6cf84048f63a2681953ec918d88930d5c4ca06ea6"),
    ("cda-storage", "wal", "7ad854a7e6a6f11bfdc3d7320f02353e214889a58aa91c6f9cdae2fe2cfb895e"),
];

fn main() {
    println!("cargo:rerun-if-env-changed=CDA_SRC");
    let here = PathBuf::from(env::var("CARGO_MANIFEST_DIR").unwrap());
    let folder = env::var("CDA_SRC").map_or_else(|_| here.join("../../../../shared/docs/src"), PathBuf::from);
    let package = env::var("CARGO_PKG_NAME").unwrap();
    let mut modules = String::new();
    for (_, file, sum) in FILES.iter().filter(|f| f.0 == package) {
        let inside = format!("{package}/src/{file}.rs");
        let flat = folder.join(format!("src--{}.txt", inside.replace('/', "--")));
        let path = if flat.exists() { flat } else { folder.join(&inside) };
        let path = path.canonicalize().unwrap_or_else(|e| panic!("CDA_SRC: {}: {e}", path.display()));
        println!("cargo:rerun-if-changed={}", path.display());
        assert_eq!(sha256(&fs::read(&path).unwrap()), *sum, "{} is not the original's", path.display());
        let module = file.rsplit('/').next().unwrap();
        modules += &format!("#[path = {path:?}]\npub(crate) mod {module};\n");
    }
    fs::write(PathBuf::from(env::var("OUT_DIR").unwrap()).join("original.rs"), modules).unwrap();
}

/// FIPS 180-4. Its constants are the first 32 bits of the fractions of square and cube roots of primes.
fn sha256(message: &[u8]) -> String {
    let primes: Vec<u64> = (2..312).filter(|n| (2..*n).all(|d| n % d != 0)).collect();
    let k: Vec<u32> = primes.iter().map(|p| root_fraction(*p, 3)).collect();
    let mut h: Vec<u32> = primes[..8].iter().map(|p| root_fraction(*p, 2)).collect();
    let mut bytes = message.to_vec();
    bytes.push(0x80);
    while bytes.len() % 64 != 56 {
        bytes.push(0);
    }
    bytes.extend((message.len() as u64 * 8).to_be_bytes());
    for block in bytes.chunks(64) {
        let mut w: Vec<u32> = block.chunks(4).map(|b| u32::from_be_bytes(b.try_into().unwrap())).collect();
        for i in 16..64 {
            let (a, b) = (w[i - 15], w[i - 2]);
            let s0 = a.rotate_right(7) ^ a.rotate_right(18) ^ (a >> 3);
            let s1 = b.rotate_right(17) ^ b.rotate_right(19) ^ (b >> 10);
            w.push(w[i - 16].wrapping_add(s0).wrapping_add(w[i - 7]).wrapping_add(s1));
        }
        let mut v = h.clone();
        for i in 0..64 {
            let s1 = v[4].rotate_right(6) ^ v[4].rotate_right(11) ^ v[4].rotate_right(25);
            let choice = (v[4] & v[5]) ^ (!v[4] & v[6]);
            let t1 = v[7].wrapping_add(s1).wrapping_add(choice).wrapping_add(k[i]).wrapping_add(w[i]);
            let s0 = v[0].rotate_right(2) ^ v[0].rotate_right(13) ^ v[0].rotate_right(22);
            let majority = (v[0] & v[1]) ^ (v[0] & v[2]) ^ (v[1] & v[2]);
            v.rotate_right(1);
            v[4] = v[4].wrapping_add(t1);
            v[0] = t1.wrapping_add(s0).wrapping_add(majority);
        }
        h.iter_mut().zip(v).for_each(|(h, v)| *h = h.wrapping_add(v));
    }
    h.iter().map(|x| format!("{x:08x}")).collect()
}

/// The first 32 bits of the fraction of p's square (n = 2) or cube (n = 3) root.
fn root_fraction(p: u64, n: u32) -> u32 {
    let (mut low, mut high) = (0u128, 1u128 << 40);
    while high - low > 1 {
        let middle = (low + high) / 2;
        if middle.pow(n) <= u128::from(p) << (32 * n) { low = middle } else { high = middle }
    }
    low as u32
}
