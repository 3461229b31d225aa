//! What must hold of every census, tried on many plans.

mod shared;

use reference::call::CUT;
use reference::cases::counted;
use reference::census::{census as verdict_and_census, Census};
use reference::form::FORMS;
use reference::plan::{list_record, sheet_record};
use reference::random::Random;
use reference::route::{Demand, TOP};
use reference::scene::Scene;
use shared::{census, judge};

const TRIES: usize = 2_000;

/// A scene in which some boxes hold nothing, with what it asks.
fn some_scene(random: &mut Random) -> Scene {
    let form = *random.pick(&FORMS);
    let mut scene = counted::hushed(form, random);
    if random.one_in(2) {
        scene.ask(3, random);
    }
    scene
}

/// The first line is the judge's, and others follow a pass alone: the four counts, and then silent
/// boxes.
#[test]
fn the_line_of_the_judge_comes_first() {
    let random = &mut Random::new(11);
    let (mut passed, mut failed, mut silent) = (0, 0, 0);
    for _ in 0..TRIES {
        let scene = some_scene(random);
        let list = scene.list();
        let lines = census(&scene.plan, &list);
        assert_eq!(lines[0], judge(&scene.plan, &list));
        if !lines[0].starts_with("pass") {
            assert_eq!(lines.len(), 1);
            failed += 1;
            continue;
        }
        passed += 1;
        let words: Vec<&str> = lines.iter().map(|line| first_word(line)).collect();
        assert_eq!(words[1..5], ["holding", "assumed", "promised", "asked"]);
        assert!(words[5..].iter().all(|word| *word == "silent"));
        silent += usize::from(lines.len() > 5);
    }
    assert!(
        passed > 500 && failed > 50 && silent > 500,
        "{passed} {failed} {silent}"
    );
}

fn first_word(line: &str) -> &str {
    line.split(' ').next().expect("a word")
}

/// Where the notes are what the list says, the fragments of a plan that passes share out its
/// boxes: those that hold a route, those of which one is asked, and the silent ones.
#[test]
fn the_fragments_counts_add_up() {
    let random = &mut Random::new(12);
    let mut passed = 0;
    for _ in 0..TRIES {
        let scene = some_scene(random);
        let form = scene.plan.form;
        let list = list_record(form, &scene.list());
        let network = scene.plan.record();
        let (_, Some(whole)) = verdict_and_census(&network, &list, TOP) else {
            continue;
        };
        passed += 1;
        let count = random.within(1, 4);
        let numbers: Vec<u8> = scene
            .held
            .iter()
            .map(|_| random.below(count) as u8)
            .collect();
        let sheet = sheet_record(form, &scene.sheet(&numbers));
        let mut sum = Census::default();
        for asked in 0..4 {
            let fragment = CUT.answer(&[&network[..], &[asked], &sheet].concat());
            let (_, Some(part)) = verdict_and_census(&fragment, &list, TOP) else {
                continue;
            };
            sum.boxes += part.boxes;
            sum.holding += part.holding;
            sum.asked += part.asked;
            sum.silent.extend(part.silent);
        }
        sum.silent.sort_unstable();
        assert_eq!((sum.boxes, sum.holding), (whole.boxes, whole.holding));
        assert_eq!((sum.asked, sum.silent), (whole.asked, whole.silent));
    }
    assert!(passed > 500, "{passed}");
}

/// Asking a silent box to hold none takes its line away and changes nothing else; asking it to
/// hold a route makes the plan fail there.
#[test]
fn asking_a_silent_box() {
    let random = &mut Random::new(13);
    let mut asked = 0;
    for _ in 0..TRIES {
        let scene = some_scene(random);
        let list = scene.list();
        let before = census(&scene.plan, &list);
        let mut silent = before.iter().filter(|line| first_word(line) == "silent");
        let Some(line) = silent.next_back().cloned() else {
            continue;
        };
        asked += 1;
        let id = line["silent ".len()..].parse().expect("an id");
        let row = scene.plan.row(id).expect("a box");
        let mut plan = scene.plan.clone();
        plan.nodes[row].demand = Demand::NoRoute;
        let rest: Vec<_> = before.into_iter().filter(|other| *other != line).collect();
        assert_eq!(census(&plan, &list), rest);
        plan.nodes[row].demand = Demand::Route {
            ceiling: u16::MAX,
            tags: 0,
        };
        let found = census(&plan, &list);
        assert!(found[0].starts_with(&format!("found 33 {id} ")) && found.len() == 1);
    }
    assert!(asked > 500, "{asked}");
}
