//! The files of program `rivercheck` are the named cases, its expected lines
//! are what the rules say of them, and every refusal from 1 to 5 is there.

use river_tests::cases::{cases, unread, A_FOLDER};
use river_tests::engine::check;
use std::{collections::BTreeSet, fs, path::Path};

#[test]
fn files_and_lines_are_the_cases() {
    let here = Path::new(env!("CARGO_MANIFEST_DIR"));
    let folder = here.join("../crates/rivercheck");
    let all = cases(&fs::read(here.join("../samples/provo.basin.bin")).unwrap());
    let stdout = fs::read_to_string(folder.join("stdout")).unwrap();
    let args = fs::read_to_string(folder.join("args")).unwrap();
    assert_eq!(stdout.lines().count(), all.len() + unread().len());
    assert_eq!(args.lines().count(), stdout.lines().count());
    for ((case, line), name) in all.iter().zip(stdout.lines()).zip(args.lines()) {
        assert_eq!(format!("{line}\n"), case.line());
        assert_eq!(name, case.name);
        assert_eq!(fs::read(folder.join("data").join(name)).unwrap(), case.file, "{name}");
        assert_eq!(check(&case.file), case.answer, "{name}");
    }
    let last = args.lines().zip(stdout.lines()).skip(all.len());
    for ((name, line), (unread, said)) in last.zip(unread()) {
        assert_eq!((name, format!("{line}\n")), (unread.as_str(), said));
    }
    assert!(folder.join("data").join(A_FOLDER).is_dir());
    // A case that is gone leaves no file behind.
    let there = fs::read_dir(folder.join("data")).unwrap();
    let there = there.map(|entry| entry.unwrap().file_name().into_string().unwrap());
    let named = all.iter().map(|case| case.name.clone()).chain([A_FOLDER.to_string()]);
    assert_eq!(there.collect::<BTreeSet<_>>(), named.collect());
}

#[test]
fn every_refusal_is_there_and_no_name_twice() {
    let all = cases(&[]);
    for number in 0..=5 {
        assert!(all.iter().any(|case| case.answer.0 == number), "{number}");
    }
    let names: BTreeSet<_> = all.iter().map(|case| &case.name).collect();
    assert_eq!(names.len(), all.len());
}
