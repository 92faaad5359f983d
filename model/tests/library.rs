//! The proved library against the model, on a small corpus and on the example schedules.

use model::compare::Comparison;
use model::coverage::Coverage;
use model::proved::Proved;
use model::trial::{run, Corpus};
use std::fs;

const FOLDER: &str = concat!(env!("CARGO_MANIFEST_DIR"), "/../schedules");

#[test]
fn the_library_does_not_differ() {
    let corpus = Corpus {
        schedules: 500,
        seed: 1_000_000,
        kind: None,
        save: std::env::temp_dir(),
        progress: false,
    };
    let (coverage, failure) =
        run(&corpus, &mut Comparison::new(Proved)).expect("files can be written");
    assert!(failure.is_none(), "{failure:?}");
    assert_eq!(coverage.schedules, 500);
}

#[test]
fn the_library_plays_the_examples() {
    let mut comparison = Comparison::new(Proved);
    let mut played = 0;
    for entry in fs::read_dir(FOLDER).expect("the folder of the example schedules") {
        let path = entry.expect("a file").path();
        if path.extension().is_some_and(|extension| extension == "bin") {
            let file = fs::read(&path).expect("a schedule");
            let difference = comparison.difference(&file, &mut Coverage::default());
            assert_eq!(difference, None, "{}", path.display());
            played += 1;
        }
    }
    assert!(played >= 10, "the examples are missing");
}
