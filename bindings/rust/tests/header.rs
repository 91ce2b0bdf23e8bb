//! The same functions with the same parameters in `src/declarations.rs`, in `include/lexpage.h` and in the Rattle crate `lexpage_c`.
use std::fs;

type Functions = Vec<(String, Vec<String>)>;

/// The functions that a file of the repository declares after each `mark`, by name, with their parameters as `change` has them.
fn declared(path: &str, mark: &str, change: fn(&str) -> Vec<String>) -> Functions {
    let path = format!("{}/../../{path}", env!("CARGO_MANIFEST_DIR"));
    let source = fs::read_to_string(&path).unwrap_or_else(|error| panic!("{path}: {error}"));
    let words = source.split_whitespace().collect::<Vec<_>>().join(" ");
    let functions = words.split(mark).skip(1).map(|rest| {
        let (name, rest) = rest.split_once('(').unwrap();
        let parameters = rest.split_once(')').unwrap().0.split(',').map(str::trim);
        (
            name.to_string(),
            parameters.filter(|p| !p.is_empty()).flat_map(change).collect(),
        )
    });
    let mut functions: Functions = functions.collect();
    functions.sort();
    functions
}

/// A parameter of the header as Rust declares it.
fn from_c(parameter: &str) -> Vec<String> {
    let (kind, name) = parameter.rsplit_once(' ').unwrap();
    let types = [
        ("uint8_t", "u8"),
        ("uint32_t", "u32"),
        ("uint64_t", "u64"),
        ("size_t", "usize"),
    ];
    let plain = types
        .iter()
        .find(|t| t.0 == kind.trim_start_matches("const "))
        .unwrap()
        .1;
    vec![match (name.strip_prefix('*'), kind.starts_with("const ")) {
        (None, _) => format!("{name}: {plain}"),
        (Some(name), true) => format!("{name}: *const {plain}"),
        (Some(name), false) => format!("{name}: *mut {plain}"),
    }]
}

/// A parameter of the Rattle crate as Rust declares it: a slice is a pointer and a length, the reply's array a pointer.
fn from_rattle(parameter: &str) -> Vec<String> {
    let (name, kind) = parameter.split_once(": ").unwrap();
    match kind {
        "u32" | "usize" => vec![parameter.to_string()],
        "&mut [u64; 16]" => vec![format!("{name}: *mut u64")],
        _ => {
            let (pointer, rest) = kind
                .strip_prefix("&mut ")
                .map_or(("*const", &kind[1..]), |rest| ("*mut", rest));
            let item = rest.strip_prefix('[').unwrap().strip_suffix(']').unwrap();
            vec![format!("{name}: {pointer} {item}"), format!("{name}_len: usize")]
        }
    }
}

#[test]
fn declarations_agree() {
    let rust = declared("bindings/rust/src/declarations.rs", "fn lexpage_", |parameter| {
        vec![parameter.to_string()]
    });
    assert_eq!(rust.len(), 10);
    assert_eq!(declared("include/lexpage.h", "uint64_t lexpage_", from_c), rust);
    assert_eq!(
        declared("crates/lexpage_c/src/lib.rt", "extern \"C\" fn lexpage_", from_rattle),
        rust
    );
}
