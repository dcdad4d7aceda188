//! The plain program of `examples/plain_script` answers scripts as `bin/farframe` does: those of the
//! repository's `examples/`, and one with every command.

use std::fs;
use std::path::{Path, PathBuf};

#[path = "../../examples/plain_script/program/mod.rs"]
mod program;

use program::Ending;

/// The scripts with a refusal for space, which the plain program does not have.
const NEED_SPACE: [&str; 12] = [
    "a_full_region_is_refused_before_the_limit_of_edits",
    "a_load_is_refused_as_an_insert_is",
    "a_text_is_placed_beside_the_one_it_replaces",
    "a_text_object_fits_a_segment",
    "an_object_comes_back_if_there_is_space",
    "an_object_waits_until_another_is_away",
    "segments_are_compacted",
    "segments_are_compacted_one_after_the_other",
    "texts_are_measured_by_their_far_form",
    "texts_fill_a_segment_to_the_byte",
    "texts_of_a_row_are_placed_together",
    "the_fill_of_a_segment_stays_until_it_is_empty",
];

/// The scripts of sessions.
const SESSIONS: [&str; 2] = ["sessions_are_a_whole_script", "threads"];

/// The scripts of a folder, in order.
fn scripts(folder: &str) -> Vec<PathBuf> {
    let folder = Path::new(env!("CARGO_MANIFEST_DIR"))
        .join("../../examples")
        .join(folder);
    let files = fs::read_dir(folder)
        .unwrap()
        .map(|file| file.unwrap().path());
    let mut scripts: Vec<_> = files
        .filter(|it| it.extension().is_some_and(|it| it == "txt"))
        .collect();
    scripts.sort();
    assert!(!scripts.is_empty());
    scripts
}

/// Checks the replies to a script, and how it ends.
fn check(script: &Path, ending: Ending) {
    let mut replies = Vec::new();
    let ended = program::answer(&fs::read(script).unwrap(), &mut replies);
    let expected = fs::read_to_string(script.with_extension("out")).unwrap();
    assert_eq!(
        String::from_utf8(replies).unwrap(),
        expected,
        "{}",
        script.display()
    );
    assert_eq!(ended, ending, "{}", script.display());
}

#[test]
fn the_examples_get_their_replies() {
    let others = [&NEED_SPACE[..], &SESSIONS[..]].concat();
    let is_other = |script: &PathBuf| {
        others
            .iter()
            .any(|name| script.file_stem().is_some_and(|it| it == *name))
    };
    let (other, same): (Vec<_>, Vec<_>) = scripts("").into_iter().partition(is_other);
    assert_eq!(other.len(), others.len());
    same.iter().for_each(|script| check(script, Ending::Served));
}

#[test]
fn scripts_that_do_not_begin_or_are_faulty_end_so() {
    scripts("bad_starts")
        .iter()
        .for_each(|script| check(script, Ending::NotOpened));
    scripts("faulty_inputs")
        .iter()
        .for_each(|script| check(script, Ending::Faulty));
}

#[test]
fn every_command_gets_its_reply() {
    let folder = Path::new(env!("CARGO_MANIFEST_DIR")).join("tests/plain_script");
    check(&folder.join("every_command.txt"), Ending::Served);
}

#[test]
fn sessions_are_not_supported() {
    let mut replies = Vec::new();
    let ending = program::answer(b"threads 2 100\n", &mut replies);
    assert_eq!(
        (ending, replies),
        (Ending::Unsupported("sessions"), Vec::new())
    );
}

#[test]
fn a_script_that_is_too_long_is_faulty() {
    let mut script = b"schema 4 int\ninsert 5\n".to_vec();
    script.resize(program::LONGEST + 1, b'\n');
    let mut replies = Vec::new();
    assert_eq!(program::answer(&script, &mut replies), Ending::Faulty);
    assert_eq!(replies, b"ok\nplace 0\n");
}
