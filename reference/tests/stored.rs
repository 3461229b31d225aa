//! The stored cases: enough of each kind, not too many bytes, and always the same.

use reference::call::{Call, CALLS, CENSUS, CUT, JOIN, JUDGE, LENT, LENT_JOIN, TRAIL};
use reference::cases;
use reference::damage::{ALL, NAMING};
use reference::form::{Form, FORMS};
use reference::input::Input;
use reference::known;
use reference::plan::{Node, Plan};
use reference::random::Random;
use std::fs;
use std::path::Path;

#[test]
fn enough_of_each_kind() {
    let stream = cases::make();
    assert!(stream.cases.len() >= 4_000);
    assert!(stream.inputs().len() + stream.answers().len() < 5_400_000);
    let given = |kind: &str, call: &Call| stream.given(kind, call);
    for kind in ["pass", "found 31", "found 32", "found 33"] {
        assert!(given(kind, JUDGE) >= 200, "{kind}");
    }
    assert!(given("network", CUT) >= 500);
    for (kind, least) in [("network", 50), ("refused  5", 20), ("refused 20", 50)] {
        assert!(given(kind, LENT) >= least, "{kind}");
    }
    for number in 1..=19 {
        let kind = format!("refused {number:>2}");
        let (judge, cut) = (given(&kind, JUDGE), given(&kind, CUT));
        // Number 5 is for inputs over the bound, which are big; 18 and 19 are the cutter's.
        let (least, judged) = (if number == 5 { 2 } else { 15 }, number < 18);
        assert!(
            cut >= least && (judge >= least) == judged,
            "{kind} {judge} {cut}"
        );
    }
}

#[test]
fn enough_of_each_kind_for_the_census() {
    let stream = cases::make();
    let given = |kind: &str| stream.given(kind, CENSUS);
    assert!(given("pass") >= 400);
    for kind in ["found 31", "found 32", "found 33"] {
        assert!(given(kind) >= 10, "{kind}");
    }
    for number in 1..=17 {
        let kind = format!("refused {number:>2}");
        let least = if number == 5 { 2 } else { 5 };
        assert!(given(&kind) >= least, "{kind}");
    }
    let counted = stream
        .cases
        .iter()
        .filter(|case| case.call.name == CENSUS.name);
    let texts = counted.map(|case| String::from_utf8_lossy(&case.answer));
    let passes: Vec<_> = texts.filter(|text| text.starts_with("pass")).collect();
    let with = |words: &str| passes.iter().filter(|text| text.contains(words)).count();
    let silent = with("\nsilent ");
    assert!(silent >= 200 && passes.len() - silent >= 200, "{silent}");
    assert!(with("\nholding 0 ") >= 100 && with("\nassumed 0 of 1\n") >= 50);
    assert!(with("\npromised 0 of 1\n") >= 50 && with("\nasked 0\n") >= 100);
}

#[test]
fn enough_of_each_kind_for_the_trail() {
    let stream = cases::make();
    let given = |kind: &str| stream.given(kind, TRAIL);
    assert!(given("trail") >= 350);
    for (kind, least) in [("found 31", 20), ("found 32", 5), ("found 33", 5)] {
        assert!(given(kind) >= least, "{kind}");
    }
    for number in 1..=18 {
        let kind = format!("refused {number:>2}");
        let least = if number == 5 { 1 } else { 3 };
        assert!(given(&kind) >= least, "{kind}");
    }
    let traced = stream
        .cases
        .iter()
        .filter(|case| case.call.name == TRAIL.name);
    let texts = traced.map(|case| String::from_utf8_lossy(&case.answer));
    let trails: Vec<_> = texts
        .filter(|text| text.starts_with(|first: char| first.is_ascii_digit()))
        .collect();
    let none = trails.iter().filter(|text| text.ends_with(" none\n"));
    assert!(none.count() >= 20);
    for (boxes, least) in [(1, 100), (2, 80), (3, 30), (4, 10), (5, 5), (512, 1)] {
        let long = trails.iter().filter(|text| text.lines().count() == boxes);
        assert!(long.count() >= least, "{boxes} boxes");
    }
}

#[test]
fn enough_of_each_kind_for_the_join() {
    let stream = cases::make();
    let given = |kind: &str, call: &Call| stream.given(kind, call);
    assert!(given("network", JOIN) >= 150);
    for number in (1..=10).chain(21..=24) {
        let kind = format!("refused {number:>2}");
        let least = if number > 20 { 4 } else { 2 };
        assert!(given(&kind, JOIN) >= least, "{kind}");
    }
    assert!(given("refused 21", JOIN) >= 30 && given("refused 22", JOIN) >= 50);
    assert!(given("refused 23", JOIN) >= 30);
    for (kind, least) in [("network", 30), ("refused  5", 5), ("refused 20", 30)] {
        assert!(given(kind, LENT_JOIN) >= least, "{kind}");
    }
}

#[test]
fn at_least_twenty_of_the_largest_size() {
    let stream = cases::make();
    for form in FORMS {
        let large = |form: Form, input: &[u8]| {
            Form::of(input) == Some(form) && input.len() > form.largest_network()
        };
        let inputs = stream.cases.iter().map(|case| &case.input[..]);
        let largest = inputs.filter(|input| large(form, input)).count();
        assert!(largest >= 20, "{form:?} {largest}");
    }
}

/// The replay program's files, which the gate runs it on and holds it to.
#[test]
fn stored_files_are_those_made_today() {
    let directory = Path::new(env!("CARGO_MANIFEST_DIR")).join("../crates/replay");
    let stream = cases::make();
    for (name, made) in [("stdin", stream.inputs()), ("stdout", stream.answers())] {
        let stored = fs::read(directory.join(name)).expect(name);
        assert!(
            stored == made,
            "{name} is not what `reference cases` writes"
        );
    }
}

#[test]
fn the_same_each_time() {
    let (one, other) = (cases::make(), cases::make());
    assert!(one.inputs() == other.inputs() && one.answers() == other.answers());
    let replayed = cases::replay(&one.inputs()).expect("calls that there are");
    assert!(replayed == one.answers());
}

#[test]
fn a_call_has_one_number_and_one_name() {
    for (number, call) in (0..).zip(CALLS) {
        assert_eq!(call.number, number);
        let [by_number, by_name] = [Call::numbered(number), Call::named(call.name)];
        assert!(by_number.is_some_and(|found| found.name == call.name));
        assert!(by_name.is_some_and(|found| found.number == number));
    }
}

#[test]
fn a_case_of_no_call_is_an_error() {
    let case = [CALLS.len() as u8, 0, 0, 0, 0];
    assert!(cases::replay(&case).is_err());
}

/// Each damage, done to an input that is whole, makes it refused or at least another.
#[test]
fn damages_damage() {
    let mut plan = known::chain();
    plan.nodes.push(Node::input(4, Some(known::START)));
    plan.wire(4, 3, 0);
    for form in FORMS {
        damages_damage_plan(plan.clone().of(form));
    }
}

/// Each damage to an id, done to an input that has one, is refused.
#[test]
fn damages_damage_an_id() {
    let whole = Input::trail(&known::junction(), 3, &known::junction_list());
    let random = &mut Random::new(10);
    for (name, damage) in NAMING {
        for _ in 0..20 {
            let mut input = whole.clone();
            damage(&mut input, random);
            assert!(input.answer().starts_with(b"refused 1"), "{name}");
        }
    }
}

fn damages_damage_plan(plan: Plan) {
    let judge = Input::judge(&plan, &known::chain_list());
    let cut = Input::cut(&plan, 1, &known::chain_sheet());
    let random = &mut Random::new(9);
    for (name, damage) in ALL {
        let refused = |whole: &Input, random: &mut Random| {
            let mut input = whole.clone();
            damage(&mut input, random);
            input.answer().starts_with(b"refused ")
        };
        let tries = 20;
        let judged = (0..tries).filter(|_| refused(&judge, random)).count();
        let cuts = (0..tries).filter(|_| refused(&cut, random)).count();
        assert!(judged + cuts >= tries / 2, "{name}: {judged} {cuts}");
    }
}
