//! What must hold of every plan, tried on many.

mod shared;

use reference::cases::inputs;
use reference::form::FORMS;
use reference::plan::{list_record, sheet_record, Listed, Noted};
use reference::random::Random;
use reference::record::{read_network, Table};
use reference::route::{self, better, carry, Policy, Route, TOP};
use reference::scene::{self, other_route, Scene, Style};
use shared::{cut_records, judge_records};
use std::collections::{BTreeMap, BTreeSet};

const TRIES: usize = 3_000;

/// A scene of any form.
fn some_scene(random: &mut Random) -> Scene {
    let form = *random.pick(&FORMS);
    let mut scene = if random.one_in(40) {
        inputs::middling(form, random)
    } else {
        inputs::small(form, random)
    };
    if random.one_in(2) {
        scene.ask(3, random);
    }
    scene
}

fn is_fragment(output: &[u8]) -> bool {
    !output.starts_with(b"refused ")
}

/// Numbers from 0 to 3 at random, by row.
fn few_numbers(scene: &Scene, random: &mut Random) -> Vec<u8> {
    let count = random.within(1, 4);
    let rows = scene.plan.nodes.iter();
    rows.map(|_| random.below(count) as u8).collect()
}

/// The held routes as notes, now and then a wrong one.
fn some_sheet(scene: &Scene, random: &mut Random) -> Vec<Noted> {
    let mut sheet = scene.sheet(&few_numbers(scene, random));
    if random.one_in(3) {
        let row = random.below(sheet.len());
        sheet[row].2 = other_route(sheet[row].2, random);
    }
    sheet
}

fn some_list(scene: &Scene, random: &mut Random) -> Vec<Listed> {
    let mut list = scene.list();
    if random.one_in(3) {
        let row = random.below(list.len());
        list[row].1 = other_route(list[row].1, random);
    }
    list
}

#[test]
fn all_boxes_in_fragment_0_give_the_same_bytes() {
    let random = &mut Random::new(1);
    for _ in 0..TRIES {
        let scene = some_scene(random);
        let sheet = sheet_record(scene.plan.form, &scene.sheet(&vec![0; scene.held.len()]));
        let network = scene.plan.record();
        assert_eq!(cut_records(&network, 0, &sheet), network);
    }
}

/// A list passes in every fragment exactly when it passes in the whole network and gives every
/// box that a cut edge leaves its note.
#[test]
fn fragments_and_whole() {
    let random = &mut Random::new(2);
    let (mut passed, mut failed) = (0, 0);
    for _ in 0..TRIES {
        let scene = some_scene(random);
        let (sheet, list) = (some_sheet(&scene, random), some_list(&scene, random));
        let (network, lent) = (scene.plan.record(), list_record(scene.plan.form, &list));
        let numbers: BTreeSet<u8> = sheet.iter().map(|entry| entry.1).collect();
        let record = sheet_record(scene.plan.form, &sheet);
        let cut = |number: &u8| cut_records(&network, *number, &record);
        let fragments: Vec<_> = numbers.iter().map(cut).collect();
        if !fragments.iter().all(|fragment| is_fragment(fragment)) {
            continue;
        }
        let passes = |network: &[u8]| judge_records(network, &lent).starts_with("pass");
        let parts = fragments.iter().all(|fragment| passes(fragment));
        let whole = passes(&network) && notes_are_listed(&scene, &sheet, &list);
        assert_eq!(parts, whole);
        passed += usize::from(whole);
        failed += usize::from(!whole);
    }
    assert!(passed > 500 && failed > 500, "{passed} {failed}");
}

fn notes_are_listed(scene: &Scene, sheet: &[Noted], list: &[Listed]) -> bool {
    let sheet: BTreeMap<_, _> = sheet.iter().map(|(id, n, note)| (id, (n, note))).collect();
    let list: BTreeMap<_, _> = list.iter().map(|(id, route)| (id, route)).collect();
    scene.plan.edges.iter().all(|edge| {
        let (Some((behind, note)), Some((ahead, _))) = (sheet.get(&edge.from), sheet.get(&edge.to))
        else {
            return true;
        };
        behind == ahead || list[&edge.from] == *note
    })
}

/// The fragments are sound, share out the own nodes, and each edge is in one of them.
#[test]
fn fragments_cover_the_network() {
    let random = &mut Random::new(3);
    for _ in 0..TRIES {
        let scene = some_scene(random);
        let numbers = few_numbers(&scene, random);
        let sheet = scene.sheet(&numbers);
        let record = sheet_record(scene.plan.form, &sheet);
        let (mut own, mut edges) = (0, 0);
        for number in sheet.iter().map(|entry| entry.1).collect::<BTreeSet<u8>>() {
            let fragment = cut_records(&scene.plan.record(), number, &record);
            let read = read_network(&fragment, &mut Table::empty());
            let network = read.expect("a sound network");
            own += network.nodes().filter(|node| node.is_own()).count();
            edges += network.edges().len();
        }
        assert_eq!(own, sheet.len());
        assert_eq!(edges, scene.plan.edges.len());
    }
}

/// Cutting by one sheet and then by another is cutting by the sheet that numbers the pairs.
#[test]
fn two_sheets_and_their_meet() {
    let random = &mut Random::new(4);
    let mut met = 0;
    for _ in 0..TRIES {
        let scene = some_scene(random);
        let (one, other) = (few_numbers(&scene, random), few_numbers(&scene, random));
        let pair = |(a, b): (&u8, &u8)| 4 * a + b;
        let both: Vec<u8> = one.iter().zip(&other).map(pair).collect();
        let notes = some_sheet(&scene, random);
        let sheet = |numbers: &[u8]| {
            let mut sheet = scene.sheet(numbers);
            let noted = sheet.iter_mut().zip(&notes);
            noted.for_each(|(entry, note)| entry.2 = note.2);
            sheet_record(scene.plan.form, &sheet)
        };
        let (first, second, meet) = (sheet(&one), sheet(&other), sheet(&both));
        let network = scene.plan.record();
        for (a, b) in (0..4).flat_map(|a| (0..4).map(move |b| (a, b))) {
            let straight = cut_records(&network, 4 * a + b, &meet);
            if !is_fragment(&straight) {
                continue;
            }
            let twice = cut_records(&cut_records(&network, a, &first), b, &second);
            let turned = cut_records(&cut_records(&network, b, &second), a, &first);
            assert_eq!(twice, straight);
            assert_eq!(turned, straight);
            met += 1;
        }
    }
    assert!(met > TRIES, "{met}");
}

/// Two lists that agree on a fragment's own boxes get the same answer from it.
#[test]
fn lists_that_agree_get_the_same_answer() {
    let random = &mut Random::new(5);
    for _ in 0..TRIES {
        let scene = some_scene(random);
        let sheet = scene.sheet(&few_numbers(&scene, random));
        let asked = random.pick(&sheet).1;
        let form = scene.plan.form;
        let fragment = cut_records(&scene.plan.record(), asked, &sheet_record(form, &sheet));
        let list = some_list(&scene, random);
        let mut other = list.clone();
        for (entry, noted) in other.iter_mut().zip(&sheet) {
            if noted.1 != asked {
                entry.1 = other_route(entry.1, random);
            }
        }
        let fewer: Vec<Listed> = list
            .iter()
            .zip(&sheet)
            .filter(|(_, noted)| noted.1 == asked || random.one_in(2))
            .map(|(entry, _)| *entry)
            .collect();
        let judge = |list: &[Listed]| judge_records(&fragment, &list_record(form, list));
        assert_eq!(judge(&other), judge(&list));
        assert_eq!(judge(&fewer), judge(&list));
    }
}

/// The five decisions, one under the other.
fn beats(one: Option<Route>, other: Option<Route>) -> bool {
    // 1 present
    let Some(a) = one else {
        return false;
    };
    let Some(b) = other else {
        return true;
    };
    // 2 preference
    if a.preference() != b.preference() {
        return a.preference() > b.preference();
    }
    // 3 cost
    if a.cost() != b.cost() {
        return a.cost() < b.cost();
    }
    // 4 origin
    if a.origin() != b.origin() {
        return a.origin() < b.origin();
    }
    // 5 tags
    a.tags() < b.tags()
}

/// Of each pair the first is better by the decision with its number: those above it say nothing,
/// and all those below it say the opposite.
#[test]
fn each_decision_before_those_below() {
    let held = |preference, cost, origin, tags| Some(Route::new(preference, cost, origin, tags));
    let decided = [
        (held(0, 9, 9, 9), None),
        (held(2, 9, 9, 9), held(1, 0, 0, 0)),
        (held(1, 4, 9, 9), held(1, 5, 0, 0)),
        (held(1, 4, 7, 9), held(1, 4, 8, 0)),
        (held(1, 4, 7, 2), held(1, 4, 7, 3)),
    ];
    for (one, other) in decided {
        assert!(beats(one, other) && !beats(other, one));
        assert_eq!(better(one, other), one);
        assert_eq!(better(other, one), one);
    }
}

#[test]
fn the_better_route() {
    let random = &mut Random::new(6);
    for _ in 0..20 * TRIES {
        let one = (!random.one_in(5)).then(|| scene::route(Style::Wild, 0, random));
        let other = if random.one_in(2) {
            other_route(one, random)
        } else {
            scene::route(Style::Wild, 0, random).into()
        };
        let best = if beats(other, one) { other } else { one };
        assert_eq!(better(one, other), best);
        assert_eq!(better(other, one), best);
        assert_eq!(better(one, one), one);
        for form in FORMS {
            let bytes = route::bytes(form, one);
            assert!(route::well_formed(&bytes));
            assert_eq!(route::read(&bytes), one);
        }
    }
}

/// What a wire does, said field by field.
#[test]
fn a_carried_route() {
    let random = &mut Random::new(7);
    let (mut carried, mut stopped) = (0, 0);
    for _ in 0..20 * TRIES {
        let policy: Policy = scene::policy(Style::Wild, random);
        let start = scene::route(Style::Wild, 0, random);
        let lacks = (0..16).any(|tag| policy.need >> tag & 1 > start.tags() >> tag & 1);
        let barred = (0..16).any(|tag| policy.bar >> tag & start.tags() >> tag & 1 == 1);
        let cost = u32::from(start.cost()) + u32::from(policy.cost);
        let Some(end) = carry(&policy, Some(start), TOP) else {
            assert!(lacks || barred || cost > 65_535);
            stopped += 1;
            continue;
        };
        carried += 1;
        assert!(!lacks && !barred);
        assert_eq!(u32::from(end.cost()), cost);
        assert_eq!(end.origin(), start.origin());
        assert_eq!(
            end.preference(),
            policy.preference.unwrap_or(start.preference())
        );
        for tag in 0..16 {
            let bit = |mask: u16| mask >> tag & 1 == 1;
            let kept = bit(start.tags()) && !bit(policy.clear);
            assert_eq!(bit(end.tags()), kept || bit(policy.set));
        }
    }
    assert!(carried > 1_000 && stopped > 1_000, "{carried} {stopped}");
    assert_eq!(carry(&Policy::adding(1), None, TOP), None);
}
