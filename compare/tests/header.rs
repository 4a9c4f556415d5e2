//! include/heatcost.h beside what says the same elsewhere: the comparison
//! program's declarations and stack, docs/FORMAT.md's refusals, the plain form's
//! numbers and lengths.

use compare::book::{BOOK_LEN, SUMS_LEN};
use compare::charges::{MAX_CHARGE, MODEL_1S, MODEL_2S};
use compare::fund::MAX_RATE;
use compare::group::{Building, MAX_BUILDINGS};
use compare::sheet::MAX_UNITS;
use std::mem::{offset_of, size_of};

const HEADER: &str = include_str!("../../include/heatcost.h");
const CALLS: &str = include_str!("../library/src/calls.rs");
const STACK: &str = include_str!("../library/src/stack.rs");
const REFUSALS: &str = include_str!("../src/refusal.rs");
const FORMAT: &str = include_str!("../../docs/FORMAT.md");

/// The number of the interface, then the declarations that it has.
const INTERFACE: &str = include_str!("interface.txt");

/// The header without its comments.
fn code() -> String {
    let mut parts = HEADER.split("/*");
    let first = parts.next().unwrap_or_default().to_string();
    let after = parts.filter_map(|part| part.split_once("*/"));
    after.fold(first, |code, (_, rest)| code + rest)
}

/// What stands behind `#define NAME`.
fn defined(name: &str) -> usize {
    let line = format!("#define {name} ");
    let values: Vec<&str> = HEADER
        .lines()
        .filter_map(|l| l.strip_prefix(&line))
        .collect();
    assert_eq!(values.len(), 1, "{name}");
    values[0].parse().expect("a number")
}

/// The header's declarations, each on one line.
fn declarations() -> Vec<String> {
    let code = code();
    let block = code.split_once("extern \"C\" {").expect("declarations").1;
    let lines: Vec<&str> = block
        .lines()
        .filter(|line| !line.starts_with('#'))
        .map(str::trim)
        .collect();
    let parts = lines.join(" ");
    let parts = parts.split(';').map(|part| part.trim().to_string());
    parts.filter(|part| part.contains('(')).collect()
}

/// A C type in Rust's words.
fn rust_type(c: &str) -> &'static str {
    match c {
        "const uint8_t *" => "*const u8",
        "const uint32_t *" => "*const u32",
        "const uint64_t *" => "*const u64",
        "const heatcost_building *" => "*const Building",
        "uint8_t *" => "*mut u8",
        "uint32_t *" => "*mut u32",
        "uint64_t *" => "*mut u64",
        "size_t" => "usize",
        "uint32_t" => "u32",
        "uint64_t" => "u64",
        _ => panic!("{c} has no Rust type here"),
    }
}

/// A C declaration, `TYPE NAME(TYPE NAME, ..)`, in Rust's words.
fn in_rust(declaration: &str) -> String {
    let named = |text: &str| {
        let name = text.rfind([' ', '*']).expect("a type before the name") + 1;
        let (kind, name) = text.split_at(name);
        (name.to_string(), rust_type(kind.trim()))
    };
    let (call, rest) = declaration.split_once('(').expect("parameters");
    let parameters: Vec<String> = rest
        .trim_end_matches(')')
        .split(',')
        .map(|parameter| named(parameter.trim()))
        .map(|(name, kind)| format!("{name}: {kind}"))
        .collect();
    let (name, answer) = named(call);
    format!("fn {name}({}) -> {answer}", parameters.join(", "))
}

#[test]
fn the_programs_declarations_are_the_headers() {
    let block = CALLS.split_once("extern \"C\" {").expect("declarations").1;
    let block = block.split_once('}').expect("their end").0;
    let words = |text: &str| text.split_whitespace().collect::<Vec<&str>>().join(" ");
    let ours: Vec<String> = block
        .split(';')
        .map(words)
        .filter(|declaration| !declaration.is_empty())
        .collect();
    let theirs: Vec<String> = declarations().iter().map(|d| in_rust(d)).collect();
    assert_eq!(ours, theirs);
}

#[test]
fn a_changed_parameter_raises_the_interface() {
    let mut lines = INTERFACE.lines();
    let number = lines.next().and_then(|line| line.parse().ok());
    assert_eq!(number, Some(defined("HEATCOST_INTERFACE")));
    let header = declarations();
    for line in lines {
        let declared = header.iter().any(|d| format!("{d};") == line);
        assert!(
            declared,
            "changed or gone: {line} Raise HEATCOST_INTERFACE, then write tests/interface.txt anew"
        );
    }
}

#[test]
fn lengths_and_stack_are_the_programs() {
    assert_eq!(defined("HEATCOST_BOOK_LEN"), BOOK_LEN);
    assert_eq!(defined("HEATCOST_SUMS_LEN"), SUMS_LEN);
    assert_eq!(defined("HEATCOST_MAX_UNITS"), MAX_UNITS);
    assert_eq!(defined("HEATCOST_MAX_BUILDINGS"), MAX_BUILDINGS);
    assert_eq!(defined("HEATCOST_MAX_CHARGE"), MAX_CHARGE as usize);
    assert_eq!(defined("HEATCOST_MODEL_1S"), MODEL_1S as usize);
    assert_eq!(defined("HEATCOST_MODEL_2S"), MODEL_2S as usize);
    assert_eq!(defined("HEATCOST_MAX_RATE"), MAX_RATE as usize);
    assert_eq!(defined("HEATCOST_TOTALS_LEN"), 9);
    let promised = format!(
        "const PROMISED: usize = {}_{:03};",
        defined("HEATCOST_STACK") / 1000,
        defined("HEATCOST_STACK") % 1000
    );
    assert!(STACK.contains(&promised), "{promised}");
}

#[test]
fn a_building_is_the_programs() {
    let declared = "typedef struct heatcost_building {\n    \
        uint64_t offset;\n    \
        uint64_t length;\n\
        } heatcost_building;";
    assert!(HEADER.contains(declared), "{declared}");
    assert_eq!(size_of::<Building>(), 16);
    assert_eq!(offset_of!(Building, offset), 0);
    assert_eq!(offset_of!(Building, length), 8);
}

/// `TooShort` as `TOO_SHORT`.
fn upper(name: &str) -> String {
    let mut text = String::new();
    for letter in name.chars() {
        if letter.is_uppercase() && !text.is_empty() {
            text.push('_');
        }
        text.extend(letter.to_uppercase());
    }
    text
}

/// Number, name and meaning of each refusal in docs/FORMAT.md.
fn refusals() -> Vec<(usize, String, &'static str)> {
    let table = FORMAT.split_once("## Refusals").expect("the section").1;
    let rows = table.lines().map(|line| line.split(" | ").collect());
    rows.filter(|cells: &Vec<&str>| cells.len() == 6)
        .filter_map(|cells| {
            let number = cells[0].trim_start_matches("| ").parse().ok()?;
            Some((number, upper(cells[2].trim_matches('`')), cells[3]))
        })
        .collect()
}

#[test]
fn numbers_names_and_texts_are_those_of_the_format() {
    let refusals = refusals();
    let numbers: Vec<usize> = refusals.iter().map(|refusal| refusal.0).collect();
    assert_eq!(numbers, (1..=25).collect::<Vec<usize>>());
    let mut members = vec!["HEATCOST_ACCEPTED = 0".to_string()];
    let mut cases = vec!["case HEATCOST_ACCEPTED: return \"accepted\";".to_string()];
    for (number, name, means) in refusals {
        members.push(format!("HEATCOST_{name} = {number}"));
        cases.push(format!("case HEATCOST_{name}: return \"{means}\";"));
        let constant = format!("pub const {name}: u32 = {number};");
        assert!(REFUSALS.contains(&constant), "{constant}");
    }
    let lines = || HEADER.lines().map(str::trim);
    let found: Vec<&str> = lines()
        .filter(|line| line.starts_with("HEATCOST_"))
        .map(|line| line.trim_end_matches(','))
        .collect();
    assert_eq!(found, members);
    let pairs = lines().zip(lines().skip(1));
    let found: Vec<String> = pairs
        .filter(|(line, _)| line.starts_with("case "))
        .map(|(line, next)| format!("{line} {next}"))
        .collect();
    assert_eq!(found, cases);
}
