//! The README's example is the one at the head of the crate, which the documentation tests run; and its refusals are the header's.
use marlbrace::Refusal;

/// The lines of the example: those behind the mark, without the front that each has.
fn example<'a>(text: &'a str, mark: &str, front: &str) -> Vec<&'a str> {
    let behind = text.lines().skip_while(move |line| !line.starts_with(mark)).skip(1);
    let begun = behind.skip_while(|line| !line.starts_with(front) || line.contains("```"));
    let stripped = begun.map_while(|line| line.strip_prefix(front).or((line == front.trim_end()).then_some("")));
    let mut lines: Vec<&str> = stripped.take_while(|line| !line.contains("```")).collect();
    lines.truncate(lines.iter().rposition(|line| !line.is_empty()).map_or(0, |last| last + 1));
    lines
}

#[test]
fn the_readme_has_the_tested_example() {
    let shown: Vec<&str> = example(include_str!("../src/lib.rs"), "//! ```", "//! ").into_iter().filter(|line| !line.starts_with("# ")).collect();
    let readme: Vec<&str> = example(include_str!("../../README.md"), "From Rust", "    ");
    assert!(shown.len() > 5);
    assert_eq!(readme, shown);
}

#[test]
fn refusals_have_the_numbers_of_the_header() {
    let header = include_str!("../../include/marlbrace.h");
    let named = header.lines().filter_map(|line| line.trim().strip_prefix("MARLBRACE_")?.trim_end_matches(',').split_once(" = "));
    let named: Vec<(String, u8)> =
        named.map(|(name, number)| (name.replace('_', "").to_lowercase(), number.parse().unwrap())).filter(|row| row.1 > 0).collect();
    let ours: Vec<(String, u8)> = Refusal::ALL.iter().map(|no| (format!("{no:?}").to_lowercase(), no.number())).collect();
    assert_eq!(ours, named);
    assert!(Refusal::ALL.iter().all(|no| !no.to_string().is_empty()));
}
