//! The C program of tests/c, compiled with the header and linked with the archives
//! that this crate links, prints what it is to print. A C++ compiler takes it too.

use std::io::ErrorKind;
use std::path::Path;
use std::process::Command;

#[test]
fn a_c_program_calls_the_store() {
    let root = Path::new(env!("CARGO_MANIFEST_DIR")).join("../..");
    let program = Path::new(env!("CARGO_TARGET_TMPDIR")).join("store");
    let cc = std::env::var("CC").unwrap_or_else(|_| "cc".to_string());
    let compiled = Command::new(&cc)
        .args(["-std=c99", "-Wall", "-Wextra", "-Wpedantic", "-Werror", "-O1", "-I"])
        .arg(root.join("include"))
        .arg(root.join("tests/c/store.c"))
        .args(env!("VERDICT_STORE_LINKED").split(':'))
        .arg("-o")
        .arg(&program)
        .output()
        .unwrap_or_else(|error| panic!("{cc} did not run: {error}"));
    assert!(compiled.status.success(), "{}", String::from_utf8_lossy(&compiled.stderr));
    let ran = Command::new(&program).output().unwrap();
    assert_eq!(String::from_utf8_lossy(&ran.stdout), include_str!("../../../tests/c/store.out"));
    assert!(ran.status.success());
}

#[test]
fn the_header_is_one_for_cpp_too() {
    let root = Path::new(env!("CARGO_MANIFEST_DIR")).join("../..");
    let cpp = std::env::var("CXX").unwrap_or_else(|_| "c++".to_string());
    let checked = Command::new(&cpp)
        .args(["-std=c++11", "-Wall", "-Wextra", "-Wpedantic", "-Werror", "-fsyntax-only", "-I"])
        .arg(root.join("include"))
        .args(["-x", "c++"])
        .arg(root.join("tests/c/store.c"))
        .output();
    match checked {
        Ok(done) => {
            assert!(done.status.success(), "{}", String::from_utf8_lossy(&done.stderr));
        }
        Err(error) if error.kind() == ErrorKind::NotFound => {
            println!("There is no {cpp} here: the header was not compiled as C++.");
        }
        Err(error) => panic!("{cpp} did not run: {error}"),
    }
}
