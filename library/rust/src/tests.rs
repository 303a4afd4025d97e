//! The crate and the library in it, tried on the queries of `examples/`, whose texts lie beside them, and on others.

use std::path::{Path, PathBuf};
use std::{fs, thread};

use super::*;

const UNTOUCHED: u8 = 0xa5;

fn files(folder: &str, ending: &str) -> Vec<PathBuf> {
    let folder = Path::new(env!("CARGO_MANIFEST_DIR")).join("../..").join(folder);
    let paths = fs::read_dir(folder).unwrap().map(|entry| entry.unwrap().path());
    let files: Vec<_> = paths.filter(|path| path.extension().is_some_and(|found| found == ending)).collect();
    assert!(!files.is_empty());
    files
}

/// The examples, and what the program prints for each.
fn examples() -> Vec<(String, String)> {
    let texts = |path: &PathBuf| (fs::read_to_string(path), fs::read_to_string(path.with_extension("txt")));
    files("examples", "json").iter().map(texts).map(|(query, text)| (query.unwrap(), text.unwrap())).collect()
}

fn printed(query: &str) -> String {
    lower(query).unwrap_or_else(|refusal| format!("{refusal}\n"))
}

/// A select of a column in so many forms, one in another, which begin and end like this.
fn nested(count: usize, begin: &str, end: &str) -> String {
    let (begin, end) = (begin.repeat(count), end.repeat(count));
    format!(r#"{{"tables":[],"plan":{{"select":[{{"empty":[["a","Int8"]]}},[{begin}{{"col":"a"}}{end}]]}}}}"#)
}

#[test]
fn examples_are_answered() {
    for (query, text) in examples() {
        assert_eq!(printed(&query), text, "{query}");
    }
}

#[test]
fn buffers_of_any_length() {
    for (query, text) in examples() {
        let (query, text) = (query.as_bytes(), text.as_bytes());
        let (status, _) = answer(query, SPARE_ROOM).unwrap();
        for length in [0, 1, text.len() - 1, text.len(), text.len() + 1, text.len() + 4096] {
            let mut buffer = vec![UNTOUCHED; length + 64];
            assert_eq!(call(query, &mut buffer[..length]), (status, text.len()));
            let (front, rest) = buffer.split_at(length.min(text.len()));
            assert_eq!(front, &text[..front.len()]);
            assert!(rest.iter().all(|&byte| byte == UNTOUCHED));
            assert_eq!(answer(query, length), Some((status, text.to_vec())));
        }
    }
}

#[test]
fn threads_at_once() {
    let examples = examples();
    let calls = |first: usize| {
        for at in first..first + 2000 {
            let (query, text) = &examples[at % examples.len()];
            assert_eq!(&printed(query), text);
        }
    };
    thread::scope(|scope| {
        for first in 0..8 {
            scope.spawn(move || calls(first));
        }
    });
}

#[test]
fn stacks_that_the_document_names() {
    let small = nested(0, "", "");
    let sums = nested(60, r#"{"bin":["Plus","#, r#",{"col":"a"}]}"#);
    let deepest = nested(122, r#"{"explode":"#, "}");
    for (query, stack) in [(small, 64 << 10), (sums, 256 << 10), (deepest, 1 << 20)] {
        let thread = thread::Builder::new().stack_size(stack).spawn(move || answer(query.as_bytes(), SPARE_ROOM));
        assert_eq!(thread.unwrap().join().unwrap().unwrap().0, LOWERED);
    }
}

#[test]
fn refusals_have_parts() {
    let missing = r#"{"tables":[],"plan":{"select":[{"filter":[{"empty":[]},{"col":"a"}]},[]]}}"#;
    let refused = Refusal::Refused { kind: Kind::ColumnNotFound, place: ".0".to_owned() };
    assert_eq!(lower(missing), Err(refused));
    let bad = |kind, path: Option<&str>| Err(Refusal::BadQuery { kind, path: path.map(str::to_owned) });
    assert_eq!(lower(""), bad(Fault::NotJson, None));
    assert_eq!(lower("null"), bad(Fault::Shape, Some("")));
    assert_eq!(lower(r#"{"tables":[],"plan":{"scan":"t"}}"#), bad(Fault::Name, Some("/plan/scan")));
    assert_eq!(lower(&" ".repeat(LONGEST)), bad(Fault::NotJson, None));
    assert_eq!(lower(&" ".repeat(LONGEST + 1)), Err(Refusal::TooLong));
}

#[test]
fn refusals_of_all_cases_are_known() {
    for path in files("crates/cases/data", "cases") {
        for line in String::from_utf8_lossy(&fs::read(path).unwrap()).lines() {
            let status = [("refused ", REFUSED), ("bad query ", BAD_QUERY)];
            if let Some((_, status)) = status.iter().find(|(start, _)| line.starts_with(start)) {
                assert_eq!(Refusal::of(*status, line).unwrap().to_string(), line);
            }
        }
    }
}

#[test]
fn unknown_answers_are_none() {
    for (status, text) in [(1, "refused Other .\n"), (1, "too long\n"), (3, "bad query Other\n"), (9, "")] {
        assert_eq!(Refusal::of(status, text), None);
    }
    assert_eq!(Refusal::of(OUT_OF_MEMORY, ""), Some(Refusal::OutOfMemory));
}
