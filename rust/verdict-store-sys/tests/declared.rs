//! The declarations of this crate and of include/verdict_store.h are those of the
//! proved crates, parameter by parameter.

use std::collections::BTreeMap;
use std::fs;
use std::path::{Path, PathBuf};

/// The parameters of each call, as written in Rust and in Rattle.
type Calls = BTreeMap<String, Vec<String>>;

fn root() -> PathBuf {
    Path::new(env!("CARGO_MANIFEST_DIR")).join("../..")
}

/// The functions whose declaration begins with these words.
fn calls(text: &str, words: &str) -> Calls {
    let mut found = Calls::new();
    for part in text.split(words).skip(1) {
        let Some((name, rest)) = part.split_once('(') else { continue };
        if name.starts_with("verdict_") {
            let list = rest.split_once(')').unwrap().0;
            let list = list.split(',').map(|p| p.split_whitespace().collect::<Vec<_>>().join(" "));
            found.insert(name.to_string(), list.filter(|p| !p.is_empty()).collect());
        }
    }
    found
}

/// The texts of the crates `exports_..`: of the static libraries, or of those that they call.
fn texts(are_static: bool) -> Vec<String> {
    let mut all = Vec::new();
    for folder in fs::read_dir(root().join("crates")).unwrap() {
        let folder = folder.unwrap();
        let name = folder.file_name().into_string().unwrap();
        if name.starts_with("exports") && name.ends_with("_c") == are_static {
            for file in fs::read_dir(folder.path().join("src")).unwrap() {
                all.push(fs::read_to_string(file.unwrap().path()).unwrap());
            }
        }
    }
    all
}

/// What the crates that export declare.
fn exported() -> Calls {
    texts(true).iter().flat_map(|text| calls(text, "pub extern \"C\" fn ")).collect()
}

/// The calls of these texts as they are written up to their bodies, however they are laid out.
fn contracts(texts: &[String], words: &str) -> BTreeMap<String, String> {
    let parts = texts.iter().flat_map(|text| text.split(words).skip(1));
    let heads = parts.filter_map(|part| part.split_once("\n{\n")).map(|(head, _)| head);
    let named = heads.filter(|head| head.starts_with("verdict_"));
    named
        .map(|head| {
            let line = head.split_whitespace().collect::<Vec<_>>().join(" ");
            let line = line.replace("( ", "(").replace(", )", ")");
            (head.split('(').next().unwrap().to_string(), line)
        })
        .collect()
}

/// What a parameter is in C.
fn in_c(parameter: &str) -> String {
    let (name, kind) = parameter.split_once(": ").unwrap();
    let (constant, kind) = match (kind.strip_prefix("&mut "), kind.strip_prefix('&')) {
        (Some(kind), _) => ("", kind),
        (None, Some(kind)) => ("const ", kind),
        (None, None) => return format!("{} {name}", number(kind)),
    };
    match kind.strip_prefix('[').and_then(|kind| kind.strip_suffix(']')) {
        Some(of) => match of.strip_suffix("; 4") {
            Some(of) => format!("{constant}{} {name}[4]", number(of)),
            None => format!("{constant}{} *{name}, size_t {name}_count", number(of)),
        },
        None => format!("{constant}{} *{name}", number(kind)),
    }
}

fn number(kind: &str) -> &str {
    match kind {
        "u8" => "uint8_t",
        "u32" => "uint32_t",
        "u64" => "uint64_t",
        "usize" => "size_t",
        other => panic!("{other} has no name in C here"),
    }
}

fn here() -> Calls {
    calls(include_str!("../src/lib.rs"), "    fn ")
}

#[test]
fn the_declarations_are_the_exports() {
    assert_eq!(here(), exported());
}

#[test]
fn each_export_promises_what_the_call_behind_it_does() {
    let exports = contracts(&texts(true), "pub extern \"C\" fn ");
    let behind = contracts(&texts(false), "pub fn ");
    assert!(exports.keys().eq(exported().keys()));
    assert!(exports.keys().eq(behind.keys()));
    for (name, contract) in exports {
        assert_eq!(contract, behind[&name]);
    }
}

#[test]
fn the_header_has_every_call() {
    let text = fs::read_to_string(root().join("include/verdict_store.h")).unwrap();
    let header = calls(&text, "\nuint32_t ");
    let wanted: Calls = here()
        .into_iter()
        .map(|(name, list)| {
            let list: Vec<String> = list.iter().map(|p| in_c(p)).collect();
            (name, list.join(", ").split(", ").map(str::to_string).collect())
        })
        .collect();
    assert_eq!(header, wanted);
}
