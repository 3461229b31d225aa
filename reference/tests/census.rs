//! What a pass carried: the counts, and the boxes that hold nothing though nobody asked for it.

mod shared;

use reference::call::{CENSUS, JUDGE};
use reference::census::{census as verdict_and_census, Census};
use reference::form::FORMS;
use reference::input::Input;
use reference::judge::Verdict;
use reference::known;
use reference::plan::{Listed, Node, Plan};
use reference::route::{Demand, Policy, Promise, Route, TOP};
use shared::{census, lines, list_record, over};

fn route(cost: u16) -> Option<Route> {
    Some(Route::new(100, cost, 1, 0))
}

fn asks_route() -> Demand {
    Demand::Route {
        ceiling: 65_535,
        tags: 0,
    }
}

/// The chain in which no box starts with a route and nothing is asked.
fn quiet_chain() -> (Plan, Vec<Listed>) {
    let mut plan = known::chain();
    plan.nodes[0].route = None;
    plan.nodes[2].demand = Demand::Nothing;
    (plan, vec![(1, None), (2, None), (3, None)])
}

/// Own nodes 5 and 9 in a row; the inputs 2 and 7, of which 7 is assumed to hold none, lead to 5.
fn with_inputs(assumed: Option<Route>) -> Plan {
    let mut plan = Plan {
        policies: vec![Policy::adding(1)],
        nodes: vec![
            Node::input(2, assumed),
            Node::own(5, None),
            Node::input(7, None),
            Node::own(9, None),
        ],
        ..Plan::default()
    };
    for (from, to) in [(2, 5), (7, 5), (5, 9)] {
        plan.wire(from, to, 0);
    }
    plan
}

#[test]
fn the_chain_carries_a_route_to_every_box() {
    let answer = Input::census(&known::chain(), &known::chain_list()).answer();
    let text = "pass 3\nholding 3 of 3\nassumed 0 of 0\npromised 0 of 0\nasked 1\n";
    assert_eq!(String::from_utf8_lossy(&answer), text);
}

#[test]
fn a_pass_that_carries_nothing() {
    let (plan, nothing) = quiet_chain();
    let answer = Input::census(&plan, &nothing).answer();
    let text = "pass 3\nholding 0 of 3\nassumed 0 of 0\npromised 0 of 0\nasked 0\n\
                silent 1\nsilent 2\nsilent 3\n";
    assert_eq!(String::from_utf8_lossy(&answer), text);
}

#[test]
fn silent_boxes_come_by_rising_id() {
    let plan = Plan {
        nodes: [0, 9, 10, 300, 65_535].map(|id| Node::own(id, None)).into(),
        ..Plan::default()
    };
    let list: Vec<_> = plan.own_ids().map(|id| (id, None)).collect();
    let silent = &census(&plan, &list)[5..];
    let expected = ["0", "9", "10", "300", "65535"].map(|id| format!("silent {id}"));
    assert_eq!(silent, expected);
}

#[test]
fn inputs_with_and_without_an_assumed_route() {
    let list = [(5, route(4)), (9, route(5))];
    let lines = census(&with_inputs(route(3)), &list);
    assert_eq!(lines[..3], ["pass 2", "holding 2 of 2", "assumed 1 of 2"]);
    assert_eq!(lines.len(), 5, "no input is silent");
    let lines = census(&with_inputs(None), &[(5, None), (9, None)]);
    assert_eq!(lines[..3], ["pass 2", "holding 0 of 2", "assumed 0 of 2"]);
    assert_eq!(lines[5..], ["silent 5", "silent 9"]);
}

#[test]
fn what_the_list_says_of_others_is_not_counted() {
    let (plan, list) = (with_inputs(route(3)), [(5, route(4)), (9, route(5))]);
    let more = [
        (2, None),
        (5, route(4)),
        (7, route(0)),
        (9, route(5)),
        (11, None),
    ];
    assert_eq!(census(&plan, &more), census(&plan, &list));
}

#[test]
fn a_route_of_zeros_is_a_route() {
    let zeros = Some(Route::new(0, 0, 0, 0));
    let mut plan = with_inputs(zeros);
    plan.nodes[1].route = zeros;
    plan.nodes[1].promise = Promise::Holds(zeros);
    let next = Some(Route::new(0, 1, 0, 0));
    let lines = census(&plan, &[(5, zeros), (9, next)]);
    let expected = [
        "pass 2",
        "holding 2 of 2",
        "assumed 1 of 2",
        "promised 1 of 1",
        "asked 0",
    ];
    assert_eq!(lines, expected);
}

#[test]
fn a_promise_of_no_route_asks_for_no_silence() {
    let (mut plan, nothing) = quiet_chain();
    plan.nodes[1].promise = Promise::Holds(None);
    let lines = census(&plan, &nothing);
    assert_eq!(lines[3], "promised 0 of 1");
    assert_eq!(lines[5..], ["silent 1", "silent 2", "silent 3"]);
}

#[test]
fn promises_of_a_route_and_of_none() {
    let mut plan = known::chain();
    plan.wire(3, 4, 0);
    plan.policies.push(Policy {
        need: 1,
        ..Policy::adding(1)
    });
    plan.edges[4].policy = 1;
    plan.nodes.push(Node::own(4, None));
    plan.nodes[0].promise = Promise::Holds(route(0));
    plan.nodes[1].promise = Promise::Holds(route(1));
    plan.nodes[3].promise = Promise::Holds(None);
    let list = [known::chain_list(), vec![(4, None)]].concat();
    let expected = [
        "pass 4",
        "holding 3 of 4",
        "assumed 0 of 0",
        "promised 2 of 3",
        "asked 1",
        "silent 4",
    ];
    assert_eq!(census(&plan, &list), expected);
}

#[test]
fn a_demand_to_hold_none_asks_for_silence() {
    let (mut plan, nothing) = quiet_chain();
    plan.nodes[1].demand = Demand::NoRoute;
    let lines = census(&plan, &nothing);
    assert_eq!(lines[1..5], census(&quiet_chain().0, &nothing)[1..5]);
    assert_eq!(lines[5..], ["silent 1", "silent 3"]);
    plan.nodes
        .iter_mut()
        .for_each(|node| node.demand = Demand::NoRoute);
    let lines = census(&plan, &nothing);
    assert_eq!(lines.len(), 5, "all of the silence was asked for");
    assert_eq!(lines[4], "asked 0", "demand 2 is not demand 1");
}

#[test]
fn every_demand_to_hold_a_route_is_counted() {
    let mut plan = known::chain();
    plan.nodes[0].demand = asks_route();
    let lines = census(&plan, &known::chain_list());
    assert_eq!(lines[4..], ["asked 2"]);
}

#[test]
fn a_list_that_fails_is_not_counted() {
    let (mut plan, nothing) = quiet_chain();
    let list = known::chain_list();
    assert_eq!(census(&plan, &list), ["found 31 1 1 100 2 1 0"]);
    plan.nodes[2].promise = Promise::Holds(route(2));
    assert_eq!(census(&plan, &nothing), ["found 32 3 3 100 2 1 0"]);
    plan.nodes[2].promise = Promise::Nothing;
    plan.nodes[2].demand = asks_route();
    assert_eq!(census(&plan, &nothing), ["found 33 3 3 none"]);
}

#[test]
fn refused_records_are_not_counted() {
    let (plan, nothing) = quiet_chain();
    let (network, list) = (plan.record(), list_record(&nothing));
    let answer = |network: &[u8], list: &[u8]| lines(&CENSUS.answer(&[network, list].concat()));
    assert_eq!(answer(&[], &[]), ["refused 1 0"]);
    assert_eq!(answer(&network, &[]), ["refused 11 0"]);
    let versioned = over(network.clone(), 4, &[7]);
    assert_eq!(answer(&versioned, &list), ["refused 2 4"]);
    assert_eq!(
        answer(&network, &list_record(&nothing[..2])),
        ["refused 17 3"]
    );
    assert_eq!(answer(&network, &over(list, 9, &[2])), ["refused 16 7"]);
}

#[test]
fn the_bound_is_that_of_the_judge() {
    assert_eq!(CENSUS.bound(), JUDGE.bound());
    let over_size = vec![0; 40_786];
    assert_eq!(lines(&CENSUS.answer(&over_size)), ["refused 5 40785"]);
    assert_eq!(lines(&CENSUS.answer(&over_size[1..])), ["refused 1 4"]);
}

/// The most boxes with ids of five digits, each promising to hold none and holding none.
#[test]
fn the_longest_answer() {
    for form in FORMS {
        let plan = longest(form.most).of(form);
        let list: Vec<_> = plan.own_ids().map(|id| (id, None)).collect();
        let answer = Input::census(&plan, &list).answer();
        assert_eq!(lines(&answer).len(), 5 + form.most);
        assert_eq!(answer.len(), 13 * form.most + 67);
    }
}

fn longest(most: usize) -> Plan {
    let ids = (65_536 - most)..65_536;
    let silent = |id| Node {
        promise: Promise::Holds(None),
        ..Node::own(id as u16, None)
    };
    Plan {
        nodes: ids.map(silent).collect(),
        ..Plan::default()
    }
}

#[test]
fn a_census_holds_what_the_lines_say() {
    let (plan, nothing) = quiet_chain();
    let (verdict, census) = verdict_and_census(&plan.record(), &list_record(&nothing), TOP);
    let expected = Census {
        boxes: 3,
        silent: vec![1, 2, 3],
        ..Census::default()
    };
    assert_eq!(verdict, Verdict::Pass { judged: 3 });
    assert_eq!(census, Some(expected));
    assert_eq!(verdict_and_census(&plan.record(), &[], TOP).1, None);
}
