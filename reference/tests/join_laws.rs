//! What must hold of every join, tried on many networks.

mod shared;

use reference::cases::inputs;
use reference::cases::joined::{fragments, OBSTACLES};
use reference::form::FORMS;
use reference::plan::{list_record, sheet_record, Noted, Plan};
use reference::random::Random;
use reference::record::{check_network, read_network, Table};
use reference::route::Promise;
use reference::scene::{other_route, Scene};
use shared::{cut_records, join_records, joined, judge_records, line};
use std::collections::BTreeSet;

const TRIES: usize = 2_000;

/// A scene of any form.
fn some_scene(random: &mut Random) -> Scene {
    let form = *random.pick(&FORMS);
    let mut scene = if random.one_in(40) {
        inputs::middling(form, random)
    } else {
        inputs::small(form, random)
    };
    if random.one_in(2) {
        scene.ask(3, random);
    }
    scene
}

/// Up to six fragments with what the boxes hold as notes, and now and then another route.
fn some_sheet(scene: &Scene, random: &mut Random) -> Vec<Noted> {
    let count = random.within(1, 6);
    let numbers: Vec<u8> = scene
        .held
        .iter()
        .map(|_| random.below(count) as u8)
        .collect();
    let mut sheet = scene.sheet(&numbers);
    if random.one_in(3) {
        let row = random.below(sheet.len());
        sheet[row].2 = other_route(sheet[row].2, random);
    }
    sheet
}

fn is_network(output: &[u8]) -> bool {
    !output.starts_with(b"refused ")
}

/// The fragments by their numbers, where the sheet cuts.
fn all_fragments(network: &[u8], sheet: &[Noted], record: &[u8]) -> Option<Vec<(u8, Vec<u8>)>> {
    let numbers: BTreeSet<u8> = sheet.iter().map(|entry| entry.1).collect();
    let fragments = numbers.into_iter().map(|number| {
        let fragment = cut_records(network, number, record);
        is_network(&fragment).then_some((number, fragment))
    });
    fragments.collect()
}

/// The plan with promises added: a box that a wire leaves to an own box with another number promises
/// its note, if it promises nothing.
fn promising(plan: &Plan, sheet: &[Noted]) -> Plan {
    let number = |id: u16| {
        sheet
            .iter()
            .find(|entry| entry.0 == id)
            .map(|entry| entry.1)
    };
    let mut whole = plan.clone();
    for (id, fragment, note) in sheet {
        let leaves = plan.edges.iter().any(|edge| {
            let ahead = number(edge.to).expect("an own box's number");
            edge.from == *id && ahead != *fragment
        });
        let row = plan.row(*id).expect("an own box");
        let node = &mut whole.nodes[row];
        if leaves && node.promise == Promise::Nothing {
            node.promise = Promise::Holds(*note);
        }
    }
    whole
}

/// However a cut's fragments are joined two by two, the network comes back, with the note promised
/// wherever a cut wire leaves a box that promised nothing; by the same sheet that is cut into the same
/// fragments.
#[test]
fn fragments_make_the_network_again() {
    let random = &mut Random::new(31);
    let (mut several, mut added) = (0, 0);
    for _ in 0..TRIES {
        let scene = some_scene(random);
        let sheet = some_sheet(&scene, random);
        let (network, record) = (scene.plan.record(), sheet_record(scene.plan.form, &sheet));
        let Some(fragments) = all_fragments(&network, &sheet, &record) else {
            continue;
        };
        let mut parts: Vec<Vec<u8>> = fragments.iter().map(|part| part.1.clone()).collect();
        several += usize::from(parts.len() > 2);
        while parts.len() > 1 {
            let one = parts.swap_remove(random.below(parts.len()));
            let other = parts.swap_remove(random.below(parts.len()));
            let both = join_records(&one, &other);
            assert!(is_network(&both), "{}", line(&both));
            parts.push(both);
        }
        assert_eq!(parts[0], promising(&scene.plan, &sheet).record());
        added += usize::from(parts[0] != network);
        for (number, fragment) in fragments {
            assert_eq!(cut_records(&parts[0], number, &record), fragment);
        }
    }
    assert!(
        several > TRIES / 4 && added > TRIES / 4,
        "{several} {added}"
    );
}

/// Two networks that fit together, or do not.
fn some_pair(random: &mut Random) -> [Plan; 2] {
    let mut pair = fragments(*random.pick(&FORMS), random);
    for _ in 0..random.below(3) {
        let (_, obstacle) = random.pick(&OBSTACLES);
        obstacle(&mut pair, random);
    }
    pair
}

/// Which network is first does not show, not even in what is refused, and what is given is sound.
#[test]
fn the_order_does_not_show() {
    let random = &mut Random::new(32);
    let (mut given, mut refused) = (0, 0);
    for _ in 0..TRIES {
        let [first, second] = some_pair(random);
        let there = joined(&[first.clone(), second.clone()]);
        let back = joined(&[second, first]);
        assert_eq!(there, back);
        if is_network(&there) {
            assert_eq!(check_network(&there), Ok(()));
            given += 1;
        } else {
            refused += 1;
        }
    }
    assert!(given > 300 && refused > 300, "{given} {refused}");
}

/// Of three networks it does not matter which two are joined first, where both ways are given.
#[test]
fn the_grouping_does_not_show() {
    let random = &mut Random::new(33);
    let (mut given, mut refused) = (0, 0);
    for _ in 0..TRIES {
        let scene = some_scene(random);
        let sheet = some_sheet(&scene, random);
        let record = sheet_record(scene.plan.form, &sheet);
        let parts = all_fragments(&scene.plan.record(), &sheet, &record);
        let Some([(_, first), (_, second), (_, third), ..]) = parts.as_deref() else {
            continue;
        };
        let mut pair = [first, second].map(|record| read(record));
        if random.one_in(3) {
            let (_, obstacle) = random.pick(&OBSTACLES);
            obstacle(&mut pair, random);
        }
        let [first, second] = pair.map(|plan| plan.record());
        let left = join_records(&join_records(&first, &second), third);
        let right = join_records(&first, &join_records(&second, third));
        if is_network(&left) && is_network(&right) {
            assert_eq!(left, right);
            given += 1;
        } else {
            refused += 1;
        }
    }
    assert!(given > 300 && refused > 50, "{given} {refused}");
}

fn read(record: &[u8]) -> Plan {
    let network = read_network(record, &mut Table::empty());
    Plan::read(&network.expect("a sound network"))
}

/// Each obstacle makes two networks that fit refused by its number, or finds nothing to change.
#[test]
fn obstacles_hinder() {
    let random = &mut Random::new(34);
    let numbers = [21, 22, 22, 22, 23, 23, 23, 23];
    for ((name, obstacle), number) in OBSTACLES.into_iter().zip(numbers) {
        let mut hindered = 0;
        for _ in 0..100 {
            let pair = fragments(FORMS[0], random);
            let mut other = pair.clone();
            obstacle(&mut other, random);
            let (before, answer) = (joined(&pair), joined(&other));
            assert!(is_network(&before));
            if answer == before {
                continue;
            }
            let words = format!("refused {number} ");
            assert!(answer.starts_with(words.as_bytes()), "{name}");
            hindered += 1;
        }
        assert!(hindered > 20, "{name} {hindered}");
    }
}

/// A list with an entry for every own box of both passes in the joint network exactly when it passes in
/// both.
#[test]
fn a_list_passes_in_both_or_not_at_all() {
    let random = &mut Random::new(35);
    let (mut passed, mut failed) = (0, 0);
    for _ in 0..TRIES {
        let scene = some_scene(random);
        let sheet = some_sheet(&scene, random);
        let record = sheet_record(scene.plan.form, &sheet);
        let Some(parts) = all_fragments(&scene.plan.record(), &sheet, &record) else {
            continue;
        };
        let mut list = scene.list();
        if random.one_in(4) {
            let row = random.below(list.len());
            list[row].1 = other_route(list[row].1, random);
        }
        let lent = list_record(scene.plan.form, &list);
        let passes = |network: &[u8]| judge_records(network, &lent).starts_with("pass");
        for pair in parts.windows(2) {
            let both = join_records(&pair[0].1, &pair[1].1);
            let apart = pair.iter().all(|(_, part)| passes(part));
            assert_eq!(passes(&both), apart);
            passed += usize::from(apart);
            failed += usize::from(!apart);
        }
    }
    assert!(passed > 500 && failed > 300, "{passed} {failed}");
}
