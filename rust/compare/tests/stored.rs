//! The stored list: it is the one that is chosen, both libraries give its answers, and document 01's readings are in it.

use compare::case::Outcome;
use compare::choice;
use compare::kind::Kind;
use compare::records::header_names;
use compare::rule::Rule;
use compare::{replay, rules, run, stored};

const FILE: &str = concat!(
    env!("CARGO_MANIFEST_DIR"),
    "/../../crates/vectors/data/answers"
);

#[test]
fn the_file_has_the_chosen_answers() {
    let bytes = std::fs::read(FILE).unwrap();
    let list = choice::list(1);
    assert!(bytes.len() < 2_000_000, "{} bytes", bytes.len());
    assert!(
        stored::file(&list) == bytes,
        "write it again: compare --vectors {FILE}"
    );
    assert_eq!(stored::list(&bytes), list);
    assert!(list.iter().all(replay::agrees));
}

#[test]
fn our_library_gives_the_stored_answers() {
    let mut outcome = Outcome::default();
    for case in choice::cases(1) {
        rules::expected(&case, &mut outcome);
        // A record of the crate's types has no buffer that is too short, and no unknown number in an enum.
        let is_frame = matches!(
            case.kind,
            Kind::ParseTileInfoFrmhdr | Kind::ParseTileInfoFrmhdrWithin
        );
        let by_type = is_frame && (case.args[0] > 3 || case.args[148] > 2)
            || case.kind == Kind::ParseFilmGrainData && case.args[0] > 3;
        if outcome.rule != Some(Rule::Short) && !by_type {
            assert!(!run::differs(&case), "{case:?}");
        }
    }
}

#[test]
fn each_kind_and_each_rule_is_in_it() {
    let mut rules_seen = [0; Rule::ALL.len()];
    let mut kinds_seen = [0; Kind::STORED];
    let mut outcome = Outcome::default();
    for case in choice::cases(1) {
        rules::expected(&case, &mut outcome);
        kinds_seen[case.kind as usize] += 1;
        if let Some(rule) = outcome.rule {
            rules_seen[rule as usize] += 1;
        }
    }
    assert!(kinds_seen.iter().all(|&n| n >= 50), "{kinds_seen:?}");
    assert!(rules_seen.iter().all(|&n| n >= 50), "{rules_seen:?}");
}

/// What document 01 says of its readings, held against the stored outcomes.
#[test]
fn the_readings_answer_as_document_01_says() {
    let answers = [
        0, 0, 0, 0, 0, 0, 0, 2, // layouts
        0, 3, 0, 1, 1, 1, 1, // the small header
        0, 0, 1, 1, // profiles 8, 31, 9, 30
        0, 0, 1, // bit-depth indices 2, 256, 3
        0, 0, 0, // five bits
        0, // the reused frame
    ];
    let mut outcome = Outcome::default();
    let uvac = header_names()
        .iter()
        .position(|name| name == "base_uvac_dq")
        .unwrap();
    let mut uvacs = Vec::new();
    for (case, answer) in choice::cases(1).iter().zip(answers) {
        rules::expected(case, &mut outcome);
        assert_eq!(outcome.answer, answer, "{case:?}");
        if case.kind == Kind::ParseSeqHdr && answer == 0 {
            uvacs.push(outcome.record[uvac]);
        }
    }
    assert_eq!(uvacs[uvacs.len() - 3..], [233, 0, 8]);
    assert_eq!(outcome.record[10..13], [0, 2, 4]);
}
