//! Tells the tests whether the original is at hand.

fn main() {
    println!("cargo::rustc-check-cfg=cfg(no_hecs)");
    println!("cargo::rerun-if-changed=build.rs");
    if std::env::var_os("DEP_HECS_MISSING").is_some() {
        println!("cargo::rustc-cfg=no_hecs");
    }
}
