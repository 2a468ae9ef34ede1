//! Finds the three files of hecs 0.11.2, checks that they are the published
//! ones, byte for byte, and tells `include!` where they stand.
//!
//! The folder is given by HECS_SRC; a relative one counts from the repository's
//! root. Without HECS_SRC it is `../shared/docs/src/src` from there. Where a
//! file is absent the build stops if HECS_SRC names the folder; else the crate
//! is built with the cfg `no_hecs`. Where a file is another one the build stops.

use std::path::PathBuf;
use std::{env, fs, process};

const DEFAULT: &str = "../shared/docs/src/src";

/// File, name of the variable handed to the crate, SHA-256.
const FILES: [(&str, &str, &str); 3] = [
    (
        "entities.rs",
        "HECS_ENTITIES",
        "022cd5f2d5697d8c6ca666133650688aea088192eb4efb4200f85eb1ab3c39bb",
    ),
    (
        "archetype.rs",
        "HECS_ARCHETYPE",
        "2f57f1e75b8238482018f9e9c1b23b3a74a93bc99981cb50f7e91b901cf474d7",
    ),
    (
        "borrow.rs",
        "HECS_BORROW",
        "89389a7efea9ab26dc74d24bcd3e90c6aaf25262b54145d31d98f0119d5007b4",
    ),
];

fn main() {
    println!("cargo::rustc-check-cfg=cfg(no_hecs)");
    println!("cargo::rerun-if-env-changed=HECS_SRC");
    println!("cargo::rerun-if-changed=build.rs");
    assert_eq!(hex(&sha256(b"abc"))[..8], *"ba7816bf");

    let root = PathBuf::from(env::var("CARGO_MANIFEST_DIR").unwrap()).join("../..");
    let given = env::var("HECS_SRC").ok().filter(|s| !s.is_empty());
    let folder = root.join(given.as_deref().unwrap_or(DEFAULT));

    for (file, variable, expected) in FILES {
        let path = folder.join(file);
        println!("cargo::rerun-if-changed={}", path.display());
        let Ok(bytes) = fs::read(&path) else {
            if given.is_some() {
                eprintln!(
                    "HECS_SRC names a folder without the original: {} can't be read",
                    path.display()
                );
                process::exit(1);
            }
            println!("cargo::rustc-cfg=no_hecs");
            println!("cargo::metadata=missing=1");
            println!(
                "cargo::warning=the original is missing: there is no {}; give the folder of hecs 0.11.2's src in HECS_SRC",
                path.display()
            );
            return;
        };
        let found = hex(&sha256(&bytes));
        if found != expected {
            eprintln!(
                "{} is not the file of hecs 0.11.2: its SHA-256 is {found}, expected {expected}",
                path.display()
            );
            process::exit(1);
        }
        let path = path.canonicalize().unwrap();
        println!("cargo::rustc-env={variable}={}", path.display());
    }
}

fn hex(bytes: &[u8]) -> String {
    bytes.iter().map(|b| format!("{b:02x}")).collect()
}

/// The first 32 bits behind the point of each prime's square or cube root,
/// as FIPS 180-4 defines the constants of SHA-256.
fn roots(count: usize, power: u32) -> Vec<u32> {
    let primes = (2u128..).filter(|n| (2..*n).all(|d| n % d != 0));
    primes
        .take(count)
        .map(|p| {
            // the largest r with r^power <= p * 2^(32 * power)
            let (mut lo, mut hi) = (0u128, 1u128 << 40);
            while hi - lo > 1 {
                let mid = (lo + hi) / 2;
                match mid.pow(power) <= p << (32 * power) {
                    true => lo = mid,
                    false => hi = mid,
                }
            }
            lo as u32
        })
        .collect()
}

fn sha256(message: &[u8]) -> [u8; 32] {
    let k = roots(64, 3);
    let mut h = roots(8, 2);
    let mut padded = message.to_vec();
    padded.push(0x80);
    while padded.len() % 64 != 56 {
        padded.push(0);
    }
    padded.extend((message.len() as u64 * 8).to_be_bytes());

    for block in padded.chunks(64) {
        let mut w = [0u32; 64];
        for (word, four) in w.iter_mut().zip(block.chunks(4)) {
            *word = u32::from_be_bytes(four.try_into().unwrap());
        }
        for i in 16..64 {
            let (a, b) = (w[i - 15], w[i - 2]);
            let s0 = a.rotate_right(7) ^ a.rotate_right(18) ^ (a >> 3);
            let s1 = b.rotate_right(17) ^ b.rotate_right(19) ^ (b >> 10);
            w[i] = w[i - 16].wrapping_add(s0).wrapping_add(w[i - 7]).wrapping_add(s1);
        }
        let mut v: Vec<u32> = h.clone();
        for i in 0..64 {
            let (a, e) = (v[0], v[4]);
            let s1 = e.rotate_right(6) ^ e.rotate_right(11) ^ e.rotate_right(25);
            let choice = (e & v[5]) ^ (!e & v[6]);
            let t1 =
                v[7].wrapping_add(s1).wrapping_add(choice).wrapping_add(k[i]).wrapping_add(w[i]);
            let s0 = a.rotate_right(2) ^ a.rotate_right(13) ^ a.rotate_right(22);
            let majority = (a & v[1]) ^ (a & v[2]) ^ (v[1] & v[2]);
            let t2 = s0.wrapping_add(majority);
            v.rotate_right(1);
            v[4] = v[4].wrapping_add(t1);
            v[0] = t1.wrapping_add(t2);
        }
        for (sum, x) in h.iter_mut().zip(v) {
            *sum = sum.wrapping_add(x);
        }
    }
    let mut out = [0; 32];
    for (four, x) in out.chunks_mut(4).zip(h) {
        four.copy_from_slice(&x.to_be_bytes());
    }
    out
}
