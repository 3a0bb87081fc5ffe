//! Every public function of the crate is documented: with an example, and with its errors where it has any. Header and crate name the
//! refusals of each call, in the table's order, and those of opening in that of ticket P6.

use std::fs;
use std::path::Path;

use balzenoh::Refusal;

/// What only the crate itself sees.
const PRIVATE: [&str; 3] = ["abi.rs", "ffi.rs", "wipe.rs"];

/// The documentation and the head of each public function and type of a source file.
fn public_items(source: &str) -> Vec<(String, String)> {
    let lines: Vec<&str> = source.lines().map(str::trim).collect();
    let starts =
        |line: &&str| ["pub fn ", "pub const fn ", "pub struct ", "pub enum "].iter().any(|start| line.starts_with(start));
    // A type that a macro makes has its documentation where the macro is used.
    let places = (0..lines.len()).filter(|&at| starts(&lines[at]) && !lines[at].contains("$name("));
    let above = |at: usize| lines[..at].iter().rev().take_while(|line| line.starts_with("///") || line.starts_with("#["));
    let head = |at: usize| lines[at..].iter().take_while(|line| !line.is_empty()).take(9).copied().collect::<Vec<_>>().join(" ");
    places.map(|at| (above(at).copied().collect(), head(at).split('{').next().unwrap_or_default().to_string())).collect()
}

#[test]
fn every_function_has_an_example_and_its_errors() {
    let folder = Path::new(env!("CARGO_MANIFEST_DIR")).join("src");
    let mut items = 0;
    for file in fs::read_dir(folder).expect("the sources").map(|file| file.expect("a file").path()) {
        let name = file.file_name().expect("a name").to_string_lossy();
        if file.is_dir() || name == "main.rs" || PRIVATE.contains(&&*name) {
            continue;
        }
        for (text, head) in public_items(&fs::read_to_string(&file).expect("text")) {
            assert!(text.contains("```"), "{name}: no example of {head}");
            assert!(!head.contains("-> Result") || text.contains("# Errors"), "{name}: the errors of {head} are not told");
            items += 1;
        }
    }
    assert!(items > 40, "only {items} public functions and types were found");
}

/// The table's order.
const TABLE: [u8; 11] = [24, 1, 2, 3, 4, 8, 9, 10, 5, 6, 7];

/// The order in opening: there 5 comes after 7.
const OPENING: [u8; 11] = [24, 1, 2, 3, 4, 8, 9, 10, 6, 7, 5];

/// What each call can be refused with.
const REFUSALS: [(&str, &[u8]); 14] = [
    ("seal", &[1, 2, 3, 10, 5]),
    ("open", &[1, 3, 10, 6, 7, 5]),
    ("seal_run", &[1, 2, 3, 4, 10, 5]),
    ("check_run", &[1, 2, 3, 4, 10, 5]),
    ("join", &[24, 4, 8, 5]),
    ("join_list", &[24, 4, 8, 9, 5]),
    ("close", &[24, 1, 2, 4, 9, 10, 5]),
    ("test", &[24, 1, 2, 3, 4, 9, 10, 6]),
    ("jump", &[3, 4, 5]),
    ("sha1", &[3, 5]),
    ("seal_sha1", &[1, 2, 3, 10, 5]),
    ("open_sha1", &[1, 3, 10, 6, 7, 5]),
    ("close_sha1", &[24, 1, 2, 4, 9, 10, 5]),
    ("test_sha1", &[24, 1, 2, 3, 4, 9, 10, 6]),
];

/// A file of the package.
fn text_of(name: &str) -> String {
    fs::read_to_string(Path::new(env!("CARGO_MANIFEST_DIR")).join(name)).expect("text")
}

/// What stands last before `end` and after `start`.
fn last_between<'a>(text: &'a str, start: &str, end: &str) -> &'a str {
    let (before, _) = text.split_once(end).unwrap_or_else(|| panic!("{end} is missing"));
    before.rsplit(start).next().unwrap_or_default()
}

/// The numbers in a text, without what stands in parentheses.
fn numbers(text: &str) -> Vec<u8> {
    let mut depth = 0;
    let outside = text.chars().filter(|c| {
        depth += i32::from(*c == '(') - i32::from(*c == ')');
        depth == 0
    });
    let outside: String = outside.collect();
    outside.split(|c: char| !c.is_ascii_digit()).filter_map(|digits| digits.parse().ok()).collect()
}

#[test]
fn the_header_names_the_refusals_of_each_function() {
    let header = text_of("include/balzenoh.h");
    for (name, refusals) in REFUSALS {
        let comment = last_between(&header, "Refusals:", &format!("uint8_t balzenoh_{name}("));
        let listed = comment.split(" On success").next().and_then(|text| text.split(" There is").next()).expect("a list");
        let order = if name.starts_with("open") { OPENING } else { TABLE };
        let in_order: Vec<u8> = order.into_iter().filter(|number| refusals.contains(number)).collect();
        assert_eq!((&numbers(listed)[..], &in_order[..]), (refusals, refusals), "{name}");
    }
    let rows = last_between(&header, "REFUSALS", "#ifndef BALZENOH_H").lines();
    let numbered = rows.filter_map(|row| row.trim_start_matches([' ', '*']).split_once("  ")?.0.parse::<u8>().ok());
    assert_eq!(numbered.collect::<Vec<_>>(), TABLE);
    let known = (1..=255).filter(|&number| !matches!(Refusal::from_number(number), Refusal::Unknown(_)));
    let enumerated = last_between(&header, "enum balzenoh_refusal {", "};").split(',');
    let values = enumerated.filter_map(|value| value.split_once(" = ")?.1.trim().parse::<u8>().ok());
    assert_eq!(values.collect::<Vec<_>>(), [0].into_iter().chain(known).collect::<Vec<_>>());
}

#[test]
fn the_calls_on_slices_name_their_refusals() {
    let source = text_of("src/raw.rs");
    for (name, refusals) in REFUSALS {
        // The call by the hash is that with a finish.
        let function = name.strip_suffix("_sha1").map_or(name.to_string(), |name| format!("{name}_with"));
        let errors = last_between(&source, "# Errors", &format!("pub fn {function}(")).split("```").next().expect("a text");
        let named = errors.split("](Refusal::").skip(1).filter_map(|rest| rest.split(')').next());
        let expected = refusals.iter().map(|&number| format!("{:?}", Refusal::from_number(number)));
        assert_eq!(named.collect::<Vec<_>>(), expected.collect::<Vec<_>>(), "{name}");
    }
}
