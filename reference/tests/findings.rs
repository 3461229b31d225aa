//! The findings and the judged count, the neighbour lookup, and the ways to get it subtly wrong.

mod shared;

use reference::judge::{judge as verdict, neighbour, Fault, Verdict};
use reference::known::{self, START, STRAIGHT};
use reference::plan::{Listed, Node, Plan};
use reference::route::{carry, Demand, Policy, Promise, Route, TOP};
use shared::{cut, judge, judge_records, list_record};

fn route(cost: u16) -> Option<Route> {
    Some(Route::new(100, cost, 1, 0))
}

#[test]
fn number_31_gives_the_due_route() {
    let mut list = known::chain_list();
    list[2].1 = None;
    assert_eq!(judge(&known::chain(), &list), "found 31 3 3 100 2 1 0");
    list[1].1 = route(7);
    assert_eq!(judge(&known::chain(), &list), "found 31 2 2 100 1 1 0");
}

#[test]
fn number_31_with_nothing_due() {
    let mut plan = known::chain();
    plan.nodes[0].route = None;
    plan.edges.clear();
    let list = [(1, None), (2, route(1)), (3, None)];
    assert_eq!(judge(&plan, &list), "found 31 2 2 none");
}

#[test]
fn number_32_gives_the_promise() {
    let mut plan = known::chain();
    plan.nodes[1].promise = Promise::Holds(route(4));
    let list = known::chain_list();
    assert_eq!(judge(&plan, &list), "found 32 2 2 100 4 1 0");
    plan.nodes[1].promise = Promise::Holds(route(1));
    assert_eq!(judge(&plan, &list), "pass 3");
}

#[test]
fn number_33_gives_the_listed_route() {
    let mut plan = known::chain();
    let list = known::chain_list();
    plan.nodes[1].demand = Demand::NoRoute;
    assert_eq!(judge(&plan, &list), "found 33 2 2 100 1 1 0");
    plan.nodes[1].demand = Demand::Route {
        ceiling: 1,
        tags: 4,
    };
    assert_eq!(judge(&plan, &list), "found 33 2 2 100 1 1 0");
    plan.nodes[1].demand = Demand::Route {
        ceiling: 1,
        tags: 0,
    };
    assert_eq!(judge(&plan, &list), "pass 3");
}

#[test]
fn at_one_node_31_comes_before_32_before_33() {
    let mut plan = known::chain();
    let mut list = known::chain_list();
    plan.nodes[0].promise = Promise::Holds(None);
    plan.nodes[0].demand = Demand::NoRoute;
    list[0].1 = None;
    assert_eq!(judge(&plan, &list), "found 31 1 1 100 0 1 0");
    list[0].1 = Some(START);
    assert_eq!(judge(&plan, &list), "found 32 1 1 none");
    plan.nodes[0].promise = Promise::Nothing;
    assert_eq!(judge(&plan, &list), "found 33 1 1 100 0 1 0");
}

#[test]
fn a_lower_node_comes_before_a_lower_number() {
    let mut plan = known::chain();
    let mut list = known::chain_list();
    plan.nodes[0].demand = Demand::NoRoute;
    list[2].1 = None;
    assert_eq!(judge(&plan, &list), "found 33 1 1 100 0 1 0");
}

/// Own nodes 5 and 9, an input 7 between them and an input 2 before them.
fn with_inputs() -> Plan {
    let mut plan = Plan {
        policies: vec![Policy::adding(1)],
        nodes: vec![
            Node::input(2, route(3)),
            Node::own(5, None),
            Node::input(7, None),
            Node::own(9, None),
        ],
        ..Plan::default()
    };
    plan.wire(2, 5, 0);
    plan.wire(7, 5, 0);
    plan.wire(5, 9, 0);
    plan
}

#[test]
fn the_judged_count_leaves_inputs_out() {
    let plan = with_inputs();
    assert_eq!(judge(&plan, &[(5, route(4)), (9, route(5))]), "pass 2");
    let line = judge(&plan, &[(5, route(4)), (9, None)]);
    assert_eq!(line, "found 31 9 2 100 5 1 0");
    let line = judge(&plan, &[(5, None), (9, None)]);
    assert_eq!(line, "found 31 5 1 100 4 1 0");
}

#[test]
fn entries_of_others_are_not_read() {
    let plan = with_inputs();
    let list = [
        (0, route(0)),
        (2, None),
        (5, route(4)),
        (7, route(0)),
        (9, route(5)),
        (65_535, route(0)),
    ];
    assert_eq!(judge(&plan, &list), "pass 2");
}

#[test]
fn verdicts_hold_what_the_line_says() {
    let network = known::chain().record();
    let mut list = known::chain_list();
    let pass = verdict(&network, &list_record(&list), TOP);
    assert_eq!(pass, Verdict::Pass { judged: 3 });
    list[2].1 = None;
    let found = Verdict::Found {
        node: 3,
        judged: 3,
        fault: Fault::NotDue(route(2)),
    };
    assert_eq!(verdict(&network, &list_record(&list), TOP), found);
    assert_eq!(verdict(&network, &[], TOP).judged(), 0);
}

#[test]
fn neighbours_are_lent_from_where_they_stand() {
    let network = with_inputs().record();
    let list = list_record(&[(2, None), (5, route(8)), (9, None)]);
    let at = |part: &[u8], whole: &[u8]| {
        let starts = part.as_ptr() as usize;
        starts.wrapping_sub(whole.as_ptr() as usize)
    };
    let own = neighbour(&network, &list, 5);
    assert_eq!((own.len(), at(own, &list)), (9, 7 + 11 + 2));
    let input = neighbour(&network, &list, 2);
    assert_eq!((input.len(), at(input, &network)), (9, 10 + 13 + 3));
    assert_eq!(neighbour(&network, &list, 7), [0; 9], "no route is a route");
    assert_eq!(neighbour(&network, &list, 4), [0; 0], "nobody");
    let short = list_record(&[(5, route(8))]);
    assert_eq!(neighbour(&network, &short, 5), [0; 0], "17 at 9");
    assert_eq!(neighbour(&network, &short, 2), [0; 0], "17 at 9");
    assert_eq!(neighbour(&network[1..], &list, 5), [0; 0]);
    assert_eq!(neighbour(&network, &list[1..], 5), [0; 0]);
}

// The ways to get it subtly wrong.

#[test]
fn a_promise_of_no_route_is_a_promise() {
    let mut plan = known::chain();
    plan.nodes[1].promise = Promise::Holds(None);
    assert_eq!(judge(&plan, &known::chain_list()), "found 32 2 2 none");
    plan.nodes[0].route = None;
    plan.nodes[2].demand = Demand::NoRoute;
    let nothing: [Listed; 3] = [(1, None), (2, None), (3, None)];
    assert_eq!(judge(&plan, &nothing), "pass 3");
}

#[test]
fn a_fragment_promises_a_note_of_no_route() {
    let mut plan = known::chain();
    plan.nodes[0].route = None;
    plan.nodes[2].demand = Demand::Nothing;
    let sheet = [(1, 0, None), (2, 0, None), (3, 1, None)];
    let fragment = cut(&plan, 0, &sheet);
    let second = 10 + 13 + 27;
    assert_eq!(
        fragment[second + 12..second + 22],
        [1, 0, 0, 0, 0, 0, 0, 0, 0, 0]
    );
    assert_eq!(fragment[second - 27 + 12], 0, "no cut edge leaves box 1");
    let mut wished = list_record(&[(1, None), (2, None)]);
    assert_eq!(judge_records(&fragment, &wished), "pass 2");
    plan.nodes[0].route = Some(START);
    let fragment = cut(&plan, 0, &sheet);
    wished = list_record(&[(1, Some(START)), (2, Some(STRAIGHT))]);
    assert_eq!(judge_records(&fragment, &wished), "found 32 2 2 none");
}

#[test]
fn a_box_without_an_entry_does_not_hold_none() {
    let mut plan = known::chain();
    plan.nodes[0].route = None;
    plan.nodes[2].demand = Demand::Nothing;
    assert_eq!(judge(&plan, &[(1, None), (3, None)]), "refused 17 2");
}

#[test]
fn a_box_with_no_route_does_not_meet_demand_1() {
    let mut plan = known::chain();
    plan.nodes[0].route = None;
    plan.nodes[2].demand = Demand::Route {
        ceiling: 65_535,
        tags: 0,
    };
    let nothing = [(1, None), (2, None), (3, None)];
    assert_eq!(judge(&plan, &nothing), "found 33 3 3 none");
}

#[test]
fn a_fragment_keeps_one_direction_of_a_cut_wire() {
    let sheet = known::chain_sheet();
    let ends = |fragment: &[u8], edges: usize| -> Vec<[u8; 4]> {
        let part = &fragment[fragment.len() - 5 * edges..];
        part.chunks(5).map(|e| [e[0], e[1], e[2], e[3]]).collect()
    };
    let first = cut(&known::chain(), 0, &sheet);
    assert_eq!(ends(&first, 3), [[0, 1, 0, 2], [0, 2, 0, 1], [0, 2, 0, 3]]);
    let last = cut(&known::chain(), 1, &sheet);
    assert_eq!(ends(&last, 1), [[0, 3, 0, 2]]);
}

#[test]
fn cost_does_not_wrap() {
    for (cost, more) in [(65_535, 1), (1, 65_535), (65_535, 65_535), (40_000, 25_536)] {
        assert_eq!(carry(&Policy::adding(more), route(cost), TOP), None);
    }
    assert_eq!(
        carry(&Policy::adding(25_535), route(40_000), TOP),
        route(65_535)
    );
}
