//! Two networks as one: joins made by hand, and the refusals 21 to 23 with their places.

mod shared;

use reference::call::{JOIN, LENT_JOIN};
use reference::cases::joined::bare;
use reference::form::VERSION_1;
use reference::join::join;
use reference::known::{self, feed, START, STRAIGHT};
use reference::plan::{Node, Plan};
use reference::record::check_network;
use reference::route::{Policy, Promise, Route};
use shared::{cut_records, joined, line, over, sheet_record};

/// What the program answers to the chain's parts, after this was done to them.
fn chain_joined(edit: impl Fn(&mut [Plan; 2])) -> Vec<u8> {
    let mut parts = known::chain_parts();
    edit(&mut parts);
    joined(&parts)
}

/// The line of the same, in both orders.
fn refused(edit: impl Fn(&mut [Plan; 2])) -> String {
    let mut parts = known::chain_parts();
    edit(&mut parts);
    let [there, back] = [&parts, &[parts[1].clone(), parts[0].clone()]];
    assert_eq!(joined(there), joined(back));
    line(&joined(there))
}

fn route(cost: u16) -> Option<Route> {
    Some(Route::new(100, cost, 1, 0))
}

/// The chain in which the boxes that cut wires leave promise their notes.
fn chain_promising() -> Plan {
    let mut plan = known::chain();
    plan.nodes[1].promise = Promise::Holds(route(1));
    plan.nodes[2].promise = Promise::Holds(route(2));
    plan
}

#[test]
fn the_chain_again() {
    let whole = chain_promising().record();
    assert_eq!(whole.len(), 124);
    let [first, second] = known::chain_parts();
    assert_eq!(joined(&[first.clone(), second.clone()]), whole);
    assert_eq!(joined(&[second.clone(), first.clone()]), whole);
    let sheet = sheet_record(&known::chain_sheet());
    assert_eq!(cut_records(&whole, 0, &sheet), first.record());
    assert_eq!(cut_records(&whole, 1, &sheet), second.record());
    let network = known::chain().record();
    assert_eq!(cut_records(&network, 0, &sheet), first.record());
    assert_eq!(cut_records(&network, 1, &sheet), second.record());
}

/// Inputs that neither owns stay, one of two; of one id the own box stays, whichever network has it.
#[test]
fn inputs_that_neither_owns() {
    let fed = chain_joined(|[first, second]| {
        for (part, to) in [(first, 1), (second, 3)] {
            part.nodes.push(Node::input(9, route(5)));
            part.wire(9, to, 0);
        }
    });
    let mut whole = chain_promising();
    whole.nodes.push(Node::input(9, route(5)));
    whole.wire(9, 1, 0);
    whole.wire(9, 3, 0);
    assert_eq!(fed, whole.record());
    assert_eq!(check_network(&fed), Ok(()));
}

#[test]
fn networks_that_share_no_box() {
    let [first, _] = known::chain_parts();
    let mut second = bare(VERSION_1, 10, 3, 2, &[]);
    let apart = joined(&[second.clone(), first.clone()]);
    second.nodes.splice(0..0, first.nodes);
    second.edges.extend(first.edges);
    assert_eq!(apart, second.record());
}

#[test]
fn number_21_owned_by_both() {
    assert_eq!(
        refused(|parts| parts[0].nodes[2].own = true),
        "refused 21 3"
    );
    assert_eq!(
        refused(|parts| parts[1].nodes[0].own = true),
        "refused 21 2"
    );
    let both = |parts: &mut [Plan; 2]| {
        parts[0].nodes[2].own = true;
        parts[1].nodes[0].own = true;
    };
    assert_eq!(refused(both), "refused 21 2", "the lowest");
    let network = known::chain().record();
    let twice = [&network[..], &network].concat();
    assert_eq!(line(&JOIN.answer(&twice)), "refused 21 1");
    let after_22 = |parts: &mut [Plan; 2]| {
        parts[0].nodes[2].own = true;
        parts[0].nodes[1].promise = Promise::Nothing;
    };
    assert_eq!(refused(after_22), "refused 21 3", "before 22 at box 2");
}

#[test]
fn number_22_without_an_equal_promise() {
    let promise = |promise| refused(move |parts| parts[0].nodes[1].promise = promise);
    assert_eq!(promise(Promise::Nothing), "refused 22 2");
    assert_eq!(promise(Promise::Holds(None)), "refused 22 2");
    assert_eq!(promise(Promise::Holds(Some(START))), "refused 22 2");
    let none = |promise| {
        move |parts: &mut [Plan; 2]| {
            parts[1].nodes[0].route = None;
            parts[0].nodes[1].promise = promise;
        }
    };
    assert_eq!(refused(none(Promise::Nothing)), "refused 22 2");
    assert_eq!(
        refused(none(Promise::Holds(Some(STRAIGHT)))),
        "refused 22 2"
    );
    let silent = chain_joined(none(Promise::Holds(None)));
    assert_eq!(check_network(&silent), Ok(()), "none is a promise");
    let second = |parts: &mut [Plan; 2]| parts[1].nodes[1].promise = Promise::Nothing;
    assert_eq!(refused(second), "refused 22 3", "the other network's");
}

/// One field is enough.
#[test]
fn number_22_looks_at_every_field() {
    for other in [
        (101, 1, 1, 0),
        (100, 2, 1, 0),
        (100, 1, 2, 0),
        (100, 1, 1, 1),
    ] {
        let (preference, cost, origin, tags) = other;
        let other = Some(Route::new(preference, cost, origin, tags));
        assert_eq!(
            refused(|parts| parts[1].nodes[0].route = other),
            "refused 22 2"
        );
    }
}

#[test]
fn number_22_two_assumptions() {
    let fed = |id, one, other| refused(move |parts| feed(parts, id, [one, other]));
    assert_eq!(fed(9, route(5), route(6)), "refused 22 9");
    assert_eq!(fed(9, None, route(6)), "refused 22 9");
    assert_eq!(fed(0, route(5), None), "refused 22 0");
}

/// One lowest id for both halves of 22 and over both networks.
#[test]
fn number_22_the_lowest_of_all() {
    let edits = |id| {
        refused(move |parts| {
            feed(parts, id, [route(5), None]);
            parts[0].nodes[1].promise = Promise::Nothing;
            parts[1].nodes[1].promise = Promise::Holds(None);
        })
    };
    assert_eq!(edits(0), "refused 22 0");
    assert_eq!(edits(9), "refused 22 2");
}

#[test]
fn number_23_policies_differ() {
    let cost = |cost| Policy::adding(cost);
    let tables = |one: &[Policy], other: &[Policy]| {
        let mut parts = known::chain_parts();
        parts[0].policies = one.to_vec();
        parts[1].policies = other.to_vec();
        joined(&parts)
    };
    let same = [cost(1), cost(2)];
    assert_eq!(check_network(&tables(&same, &same)), Ok(()));
    assert_eq!(line(&tables(&same, &same[..1])), "refused 23 0", "count");
    assert_eq!(line(&tables(&same[..1], &same)), "refused 23 0", "count");
    assert_eq!(
        line(&tables(&same, &[cost(2), cost(1)])),
        "refused 23 0",
        "order"
    );
    assert_eq!(
        line(&tables(&same, &[cost(1), cost(3)])),
        "refused 23 0",
        "unused"
    );
    let fields: [fn(&mut Policy); 6] = [
        |policy| policy.need = 1,
        |policy| policy.bar = 1,
        |policy| policy.clear = 256,
        |policy| policy.set = 1,
        |policy| policy.preference = Some(0),
        |policy| policy.cost = 257,
    ];
    for field in fields {
        assert_eq!(
            refused(|parts| field(&mut parts[0].policies[0])),
            "refused 23 0"
        );
    }
    let after_22 = |parts: &mut [Plan; 2]| {
        parts[0].nodes[1].promise = Promise::Nothing;
        parts[0].policies.push(cost(1));
    };
    assert_eq!(refused(after_22), "refused 22 2");
}

#[test]
fn refused_calls_write_nothing() {
    let [first, second] = known::chain_parts().map(|part| part.record());
    let ill = over(second.clone(), 4, &[0]);
    let mut out = [7; 200];
    assert!(join(&ill, &second, &mut out).is_err());
    assert!(join(&first, &ill, &mut out).is_err());
    assert!(join(&first, &first, &mut out).is_err());
    // What is assumed of box 2.
    let unlike = over(second.clone(), 30, &[9]);
    assert!(join(&first, &unlike, &mut out).is_err());
    assert_eq!(out, [7; 200]);
}

/// The first network's refusals, then the second's, whose places count from its own start.
#[test]
fn the_first_network_comes_before_the_second() {
    let [first, second] = known::chain_parts().map(|part| part.record());
    let program = |one: &[u8], other: &[u8]| line(&JOIN.answer(&[one, other].concat()));
    // The last edge's policy.
    let [ill, bad] = [&first, &second].map(|record| over(record.clone(), record.len() - 1, &[1]));
    let (edge, other_edge) = (first.len() - 5, second.len() - 5);
    assert_eq!(program(&ill, &bad), format!("refused 9 {edge}"));
    assert_eq!(program(&first, &bad), format!("refused 9 {other_edge}"));
    assert_eq!(program(&bad, &ill), format!("refused 9 {other_edge}"));
    assert_eq!(
        program(&first, &over(second.clone(), 4, &[2])),
        "refused 2 4"
    );
    assert_eq!(
        program(&first, &over(first.clone(), 10, &[1])),
        "refused 21 1",
        "21 before 23"
    );
}

#[test]
fn inputs_that_end_early_or_late() {
    let [first, second] = known::chain_parts().map(|part| part.record());
    let both = [&first[..], &second].concat();
    let program = |input: &[u8]| line(&JOIN.answer(input));
    assert_eq!(program(&[]), "refused 1 0");
    assert_eq!(program(&both[..first.len() - 1]), "refused 1 118");
    assert_eq!(program(&first), "refused 1 0", "no second network");
    for length in 1..second.len() {
        let input = &both[..first.len() + length];
        assert_eq!(program(input), format!("refused 1 {length}"));
    }
    let longer = [&both[..], &[0]].concat();
    assert_eq!(program(&longer), format!("refused 5 {}", second.len()));
}

#[test]
fn records_handed_over_apart() {
    let [first, second] = known::chain_parts().map(|part| part.record());
    let lent = |room: u16, length: usize| {
        let head = [room.to_be_bytes(), (length as u16).to_be_bytes()].concat();
        LENT_JOIN.answer(&[&head[..], &first, &second].concat())
    };
    assert_eq!(lent(124, first.len()), chain_promising().record());
    assert_eq!(line(&lent(123, first.len())), "refused 20 124");
    assert_eq!(line(&lent(200, first.len() + 1)), "refused 5 119");
    assert_eq!(line(&lent(200, first.len() - 1)), "refused 1 118");
    assert_eq!(line(&lent(200, 60_000)), "refused 5 119");
    assert_eq!(LENT_JOIN.answer(&[0; 3]), []);
}
