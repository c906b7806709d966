//! The library beside the Rust crate iprange and an independent model. See `run` in this folder. Without the feature `calls` it has the benchmark alone, and
//! needs no archive of calls as bytes.
#![cfg_attr(not(feature = "calls"), allow(dead_code))]
mod bench;
#[cfg(feature = "calls")]
mod by_hand;
#[cfg(feature = "calls")]
mod damage;
#[cfg(feature = "calls")]
mod differential;
mod exports;
mod files;
#[cfg(feature = "calls")]
mod forms;
mod inputs;
mod kept;
mod layout;
mod lists;
mod many;
mod model;
mod oracle;
mod paths;
mod plan;
mod runs;
mod salvage;
#[cfg(feature = "calls")]
mod sample;
mod text4;
mod text6;
mod wire;
mod wrecks;

fn main() {
    let words: Vec<String> = std::env::args().skip(1).collect();
    let numbers: Option<Vec<u64>> = words.iter().skip(1).map(|word| word.parse().ok()).collect();
    let status = match (words.first().map(String::as_str), numbers.as_deref()) {
        (Some("bench"), _) => bench::main(&words[1..]),
        #[cfg(feature = "calls")]
        (Some("differential"), Some(&[calls, seed])) => !differential::main(calls, seed) as i32,
        #[cfg(feature = "calls")]
        (Some("sample"), Some(&[frames, seed])) => !sample::sample(frames, seed) as i32,
        (Some("wrecks"), Some(&[most, short])) => !wrecks::main(most, short) as i32,
        _ => {
            eprintln!("usage: harness differential CALLS SEED, harness sample FRAMES SEED, harness bench OPTIONS, or harness wrecks MOST SHORT (`run` has the options)");
            2
        }
    };
    std::process::exit(status);
}
