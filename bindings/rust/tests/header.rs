//! src/sys.rs declares what the installed compressor.h declares, with the same numbers.

use std::collections::{BTreeMap, BTreeSet};
use std::fs;
use std::path::Path;

/// The header without comments.
fn header() -> String {
    let path = Path::new(env!("COMPRESSOR_INCLUDE")).join("compressor.h");
    let text = fs::read_to_string(path).expect("the installed header");
    without(&text, "/*", "*/")
}

/// A text without what stands between these words, and without the words.
fn without(text: &str, from: &str, to: &str) -> String {
    let mut parts = text.split(from);
    let first = parts.next().unwrap_or_default().to_owned();
    parts.filter_map(|it| it.split_once(to)).fold(first, |all, (_, rest)| all + rest)
}

/// Functions by their names: the parameters' types, and the result.
type Functions = BTreeMap<String, Vec<String>>;

/// What stands between commas, with single spaces.
fn parameters(text: &str) -> impl Iterator<Item = String> + '_ {
    let parts = text.split(',').map(|it| it.split_whitespace().collect::<Vec<_>>().join(" "));
    parts.filter(|it| !it.is_empty() && it != "void")
}

/// The type in Rust of a parameter in C. What fills an array of 64 words, and a handle or a struct, is a reference.
fn type_of(parameter: &str) -> String {
    let (kind, name) = parameter.rsplit_once([' ', '*']).expect("a type and a name");
    if name.ends_with("[64]") {
        return "&mut [u64; 64]".to_owned();
    }
    let kind = kind.trim();
    let base = |it: &str| match it {
        "size_t" => "usize".to_owned(),
        "uint64_t" | "uint32_t" | "uint8_t" => format!("u{}", &it[4..it.len() - 2]),
        other => camel(other),
    };
    let is_pointer = parameter.contains('*');
    match (is_pointer, kind.strip_prefix("const ")) {
        (false, _) => base(kind),
        (true, Some(kind)) => format!("*const {}", base(kind)),
        (true, None) if kind.starts_with("compressor_") => format!("&mut {}", base(kind)),
        (true, None) => format!("*mut {}", base(kind)),
    }
}

/// `MutatorFacts` of `compressor_mutator_facts`.
fn camel(name: &str) -> String {
    let words = name.split('_').skip_while(|&it| it == "compressor");
    words.map(|it| it[..1].to_uppercase() + &it[1..]).collect()
}

fn declared_in_c(text: &str) -> Functions {
    let mut found = Functions::new();
    for (result, own) in [
        ("compressor_answer ", "Answer"),
        ("uint32_t ", "u32"),
        ("const char *", "*const c_char"),
        ("void ", ""),
    ] {
        for declared in text.split(&format!("\n{result}")).skip(1) {
            let (declared, _) = declared.split_once(");").expect("the end of a declaration");
            let (name, given) = declared.split_once('(').expect("parameters");
            let mut types: Vec<String> = parameters(given).map(|it| type_of(&it)).collect();
            types.push(own.to_owned());
            found.insert(name.to_owned(), types);
        }
    }
    found
}

fn declared_in_rust(text: &str) -> Functions {
    let mut found = Functions::new();
    let (_, block) = text.split_once("unsafe extern \"C\" {").expect("the declarations");
    for declared in block.split("fn ").skip(1) {
        let (declared, _) = declared.split_once(";\n").expect("the end of a declaration");
        let (name, rest) = declared.split_once('(').expect("parameters");
        let (given, result) = rest.rsplit_once(')').expect("parameters");
        let of = |it: String| it.split_once(": ").expect("a name and a type").1.to_owned();
        let mut types: Vec<String> = parameters(given).map(of).collect();
        types.push(result.trim_start_matches(" -> ").to_owned());
        found.insert(name.to_owned(), types);
    }
    found
}

#[test]
fn functions_are_those_of_the_header() {
    let in_c = declared_in_c(&header());
    let in_rust = declared_in_rust(include_str!("../src/sys.rs"));
    assert!(in_c.len() > 60);
    let names: BTreeSet<_> = in_c.keys().chain(in_rust.keys()).collect();
    for name in names {
        assert_eq!(in_rust.get(name), in_c.get(name), "{name}: sys.rs, and compressor.h");
    }
}

/// The statuses of the header: their numbers and names.
fn statuses_in_c(text: &str) -> Vec<(u32, String)> {
    let (_, rest) = text.split_once("typedef enum compressor_status {").expect("the statuses");
    let (body, _) = rest.split_once('}').expect("the end of the statuses");
    let mut found = Vec::new();
    for line in body.split(',') {
        let (name, number) = line.split_once('=').expect("a status");
        let name = name.trim().strip_prefix("COMPRESSOR_").expect("a name");
        found.push((number.trim().parse().expect("a number"), name.to_owned()));
    }
    found
}

#[test]
fn refusals_are_the_statuses_of_the_header() {
    let text = include_str!("../src/refusal.rs");
    let (_, table) = text.split_once("\nrefusals! {").expect("the refusals");
    let (table, _) = table.split_once("\n}").expect("the end of the refusals");
    let mut found = vec![(0, "DONE".to_owned())];
    for line in table.lines().map(str::trim).filter(|it| !it.is_empty() && !it.starts_with("///")) {
        let mut words = line.split(' ');
        let number = words.next().and_then(|it| it.parse().ok()).expect("a number");
        found.push((number, words.next().expect("a name").to_owned()));
    }
    assert_eq!(found, statuses_in_c(&header()));
}

#[test]
fn structs_have_the_fields_of_the_header() {
    let text = header();
    let sources = concat!(include_str!("../src/sys.rs"), include_str!("../src/flipped.rs"));
    let mut compared = 0;
    for part in text.split("typedef struct ").skip(1) {
        let (name, rest) = part.split_once(" {").expect("a struct");
        let (body, _) = rest.split_once('}').expect("the end of a struct");
        if body.contains("void *at") || name == "compressor_shape" {
            continue;
        }
        let fields = body.split(';').map(str::trim).filter(|it| !it.is_empty()).map(|it| {
            let (kind, name) = it.split_once(' ').expect("a type and a name");
            let kind = format!("u{}", &kind[4..kind.len() - 2]);
            match name.strip_suffix("[5]") {
                Some(name) => format!("{name}: [{kind}; 5]"),
                None => format!("{name}: {kind}"),
            }
        });
        let (_, rest) = sources.split_once(&format!("pub struct {} {{", camel(name))).expect(name);
        let (body, _) = rest.split_once('}').expect("the end of a struct");
        let own = body.lines().map(str::trim).filter(|it| it.ends_with(','));
        let own = own.map(|it| it.trim_end_matches(',').trim_start_matches("pub ").to_owned());
        assert_eq!(own.collect::<Vec<_>>(), fields.collect::<Vec<_>>(), "{name}");
        compared += 1;
    }
    assert_eq!(compared, 7);
}

#[test]
fn the_versions_agree() {
    let number = |text: &str| text.parse::<u32>().expect("a number");
    let (major, minor, patch) = (
        number(env!("CARGO_PKG_VERSION_MAJOR")),
        number(env!("CARGO_PKG_VERSION_MINOR")),
        number(env!("CARGO_PKG_VERSION_PATCH")),
    );
    let own = major * 1_000_000 + minor * 1000 + patch;
    let linked = compressor::version();
    assert!(linked >= own && linked / 1_000_000 == major, "{linked}, and this is {own}");
    let first =
        compressor::version_text().lines().next().and_then(|it| it.strip_prefix("compressor "));
    let numbers = first.expect("a version").split('.').map(number);
    assert_eq!(numbers.fold(0, |all, it| all * 1000 + it), linked);
}
