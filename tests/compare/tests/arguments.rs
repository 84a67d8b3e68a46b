//! The comparison with other arguments than .ci/run's: it fails only where something differs.

use std::process::{Command, Output};

fn compare(words: &[&str]) -> Output {
    Command::new(env!("CARGO_BIN_EXE_compare")).args(words).output().expect("it runs")
}

/// Few lists need not try everything. They are the same all the same.
#[test]
fn few_of_each() {
    for words in [&["120", "20", "987654321"], &["0", "0", "0"], &["60", "1", "18446744073709551615"]] {
        let done = compare(words);
        let said = String::from_utf8_lossy(&done.stdout).into_owned();
        let last = said.lines().last().unwrap_or("");
        assert!(done.status.success() && last.ends_with(" passed, 0 failed"), "{words:?}: {said}");
    }
}

#[test]
fn what_is_no_number() {
    for words in [&["x"][..], &["1", "-1"], &["1", "1", "1", "1"], &["99999999999"], &[""]] {
        let done = compare(words);
        assert_eq!(done.status.code(), Some(2), "{words:?}");
        assert!(done.stdout.is_empty() && done.stderr.starts_with(b"usage: compare"), "{words:?}");
    }
}
