//! The example plans next to this package: the stored answers are the ones given today.

use reference::call::{CENSUS, CUT, JOIN, JUDGE, TRAIL};
use reference::cases::examples;
use std::collections::BTreeMap;
use std::ffi::OsString;
use std::fs;

#[test]
fn stored_answers_of_the_example_plans() {
    let mut answered = BTreeMap::new();
    for (path, call, input) in examples::plans() {
        let mut stored = OsString::from(&path);
        stored.push(".out");
        let stored = fs::read(stored).expect("its answer");
        assert_eq!(call.answer(&input), stored, "{path:?}");
        *answered.entry(call.name).or_insert(0) += 1;
    }
    let all = [
        (JUDGE, 20),
        (CUT, 20),
        (CENSUS, 10),
        (TRAIL, 10),
        (JOIN, 10),
    ];
    for (call, least) in all {
        assert!(answered[call.name] >= least, "{}", call.name);
    }
}
