//! Where a route started: trails made by hand.

mod shared;

use reference::call::TRAIL;
use reference::form::FORMS;
use reference::input::Input;
use reference::judge::Verdict;
use reference::known::{self, AROUND, STRAIGHT};
use reference::plan::Node;
use reference::refusal::Refusal;
use reference::route::{Demand, Policy, Promise, Route, TOP};
use reference::trail::{trail as steps_or_verdict, Step};
use shared::{line, lines, list_record, over, trail};

fn route(cost: u16) -> Option<Route> {
    Some(Route::new(100, cost, 1, 0))
}

#[test]
fn back_along_the_chain() {
    let answer = Input::trail(&known::chain(), 3, &known::chain_list()).answer();
    let text = "3 100 2 1 0\n2 100 1 1 0\n1 100 0 1 0\n";
    assert_eq!(String::from_utf8_lossy(&answer), text);
    let trail = |id| trail(&known::chain(), id, &known::chain_list());
    assert_eq!(trail(2), ["2 100 1 1 0", "1 100 0 1 0"]);
    assert_eq!(trail(1), ["1 100 0 1 0"], "box 1 starts it");
}

#[test]
fn each_of_the_two_answers() {
    let trail = |id, two, three| {
        let list = known::around_list(&[two, three]);
        trail(&known::two_answers(), id, &list)
    };
    let around = ["3 200 2 1 1", "2 100 1 1 0", "1 100 0 1 0"];
    assert_eq!(trail(3, STRAIGHT, AROUND), around);
    assert_eq!(trail(2, STRAIGHT, AROUND), ["2 100 1 1 0", "1 100 0 1 0"]);
    let mirrored = ["2 200 2 1 1", "3 100 1 1 0", "1 100 0 1 0"];
    assert_eq!(trail(2, AROUND, STRAIGHT), mirrored);
    assert_eq!(trail(3, STRAIGHT, STRAIGHT), ["found 31 2 2 200 2 1 1"]);
}

/// From a lower box of the last pod over its pod's first upper box, the first box of the spine and
/// the first pod's first upper box.
#[test]
fn across_the_fat_tree() {
    let trail = |id| trail(&known::fat_tree(), id, &known::fat_tree_list());
    let expected = [
        "19 100 4 1 0",
        "16 100 3 1 0",
        "0 100 2 1 0",
        "4 100 1 1 0",
        "6 100 0 1 0",
    ];
    assert_eq!(trail(19), expected);
    assert_eq!(trail(7), ["7 100 2 1 0", "4 100 1 1 0", "6 100 0 1 0"]);
    assert_eq!(trail(3)[..2], ["3 100 2 1 0", "5 100 1 1 0"]);
}

fn junction(id: u16) -> Vec<String> {
    trail(&known::junction(), id, &known::junction_list())
}

#[test]
fn of_several_suppliers_the_lowest() {
    assert_eq!(junction(3), ["3 100 1 1 0", "2 100 0 1 0"], "an own box");
    assert_eq!(junction(5), ["5 100 1 1 0", "4 100 0 1 0"], "an input");
}

#[test]
fn the_lowest_sender_supplies_another_route() {
    let mut plan = known::junction();
    plan.policies.push(Policy::adding(2));
    plan.edges[0].policy = 1;
    let trail = trail(&plan, 3, &known::junction_list());
    assert_eq!(trail, ["3 100 1 1 0", "4 100 0 1 0"]);
}

#[test]
fn an_input_comes_last() {
    let mut plan = known::chain();
    plan.nodes[0] = Node::input(1, route(0));
    plan.edges.retain(|edge| edge.to != 1);
    let list = [(2, route(1)), (3, route(2))];
    let expected = ["3 100 2 1 0", "2 100 1 1 0", "1 100 0 1 0"];
    assert_eq!(trail(&plan, 3, &list), expected);
    let of_input = [&[(1, route(9))][..], &list].concat();
    assert_eq!(trail(&plan, 3, &of_input), expected, "as assumed");
}

#[test]
fn a_box_that_starts_what_others_supply() {
    assert_eq!(junction(7), ["7 100 2 1 0"], "3 supplies it, too");
    assert_eq!(junction(1), ["1 100 3 1 0", "7 100 2 1 0"]);
    let mut plan = known::junction();
    plan.nodes[6].route = None;
    let trail = trail(&plan, 1, &known::junction_list());
    let through = ["1 100 3 1 0", "7 100 2 1 0", "3 100 1 1 0", "2 100 0 1 0"];
    assert_eq!(trail, through);
}

#[test]
fn an_initial_route_that_is_not_due() {
    assert_eq!(known::junction().nodes[4].route, route(5));
    assert_eq!(junction(5)[0], "5 100 1 1 0");
    assert_eq!(junction(5).len(), 2);
}

#[test]
fn a_box_that_holds_none() {
    assert_eq!(junction(8), ["8 none"]);
    let mut plan = known::chain();
    plan.nodes[0].route = None;
    plan.nodes[2].demand = Demand::NoRoute;
    let nothing = [(1, None), (2, None), (3, None)];
    for id in 1..=3 {
        let trail = trail(&plan, id, &nothing);
        assert_eq!(trail, [format!("{id} none")], "senders give none, too");
    }
}

#[test]
fn a_route_of_zeros_is_followed() {
    let mut plan = known::chain();
    plan.nodes[0].route = Some(Route::new(0, 0, 0, 0));
    let list: Vec<_> = (0..3)
        .map(|cost| (cost + 1, Some(Route::new(0, cost, 0, 0))))
        .collect();
    let expected = ["3 0 2 0 0", "2 0 1 0 0", "1 0 0 0 0"];
    assert_eq!(trail(&plan, 3, &list), expected);
}

#[test]
fn a_list_that_fails_shows_its_finding_alone() {
    let (plan, list) = (known::chain(), known::chain_list());
    let nothing: Vec<_> = list.iter().map(|(id, _)| (*id, None)).collect();
    for id in 1..=3 {
        assert_eq!(trail(&plan, id, &nothing), ["found 31 1 1 100 0 1 0"]);
    }
    let mut broken = plan.clone();
    broken.nodes[2].promise = Promise::Holds(None);
    assert_eq!(trail(&broken, 1, &list), ["found 32 3 3 none"]);
    let mut unmet = plan;
    unmet.nodes[2].demand = Demand::NoRoute;
    assert_eq!(trail(&unmet, 1, &list), ["found 33 3 3 100 2 1 0"]);
}

#[test]
fn number_18_no_own_box_has_the_id() {
    let (plan, list) = (known::junction(), known::junction_list());
    for id in [0, 9, 256, 65_535] {
        assert_eq!(junction(id), [format!("refused 18 {id}")]);
    }
    assert_eq!(junction(4), ["refused 18 4"], "an input");
    let listed = [&list[..], &[(9, route(0))]].concat();
    assert_eq!(trail(&plan, 9, &listed), ["refused 18 9"], "an entry");
}

#[test]
fn number_18_comes_before_a_finding_and_behind_17() {
    let plan = known::chain();
    let nothing = [(1, None), (2, None), (3, None)];
    assert_eq!(trail(&plan, 9, &nothing), ["refused 18 9"]);
    assert_eq!(trail(&plan, 9, &nothing[1..]), ["refused 17 1"]);
    assert_eq!(trail(&plan, 1, &nothing[1..]), ["refused 17 1"]);
}

#[test]
fn the_refusals_of_judging_come_first() {
    let (network, list) = (known::chain().record(), list_record(&known::chain_list()));
    let longer = [&list[..], &[0]].concat();
    for (network, list, answer) in [
        (network.clone(), list.clone(), "refused 18 9"),
        (over(network.clone(), 4, &[7]), list.clone(), "refused 2 4"),
        // The last edge's policy.
        (
            over(network.clone(), 123, &[1]),
            list.clone(),
            "refused 9 119",
        ),
        (network.clone(), vec![], "refused 11 0"),
        (network.clone(), longer, "refused 15 40"),
        (network, over(list, 9, &[2]), "refused 16 7"),
    ] {
        let input = [&network[..], &[0, 9], &list].concat();
        assert_eq!(line(&TRAIL.answer(&input)), answer);
    }
}

#[test]
fn the_id_is_two_bytes_behind_the_network() {
    let mut plan = known::chain();
    for id in [1, 2, 3] {
        plan.nodes[usize::from(id) - 1].id = 0x0100 * id;
    }
    for edge in &mut plan.edges {
        (edge.to, edge.from) = (0x0100 * edge.to, 0x0100 * edge.from);
    }
    let list: Vec<_> = known::chain_list()
        .into_iter()
        .map(|(id, held)| (0x0100 * id, held))
        .collect();
    assert_eq!(trail(&plan, 0x0200, &list)[0], "512 100 1 1 0");
    let network = plan.record();
    for rest in [&[][..], &[2], &[2, 0]] {
        let input = [&network[..], rest].concat();
        assert_eq!(line(&TRAIL.answer(&input)), "refused 11 0");
    }
    let swapped = [&network[..], &[0, 2], &list_record(&list)].concat();
    assert_eq!(line(&TRAIL.answer(&swapped)), "refused 18 2");
}

#[test]
fn the_bound_is_two_bytes_over_that_of_the_judge() {
    let zeros = vec![0; 40_788];
    assert_eq!(line(&TRAIL.answer(&zeros)), "refused 5 40787");
    assert_eq!(line(&TRAIL.answer(&zeros[1..])), "refused 1 4");
}

/// All boxes that a network can have, each on a line of thirty bytes.
#[test]
fn the_longest_trail() {
    for form in FORMS {
        let (plan, list) = known::longest_trail(form);
        let ids: Vec<u16> = plan.own_ids().collect();
        let answer = Input::trail(&plan, ids[0], &list).answer();
        assert_eq!(answer.len(), 30 * form.most);
        let lines = lines(&answer);
        for (line, id) in lines.iter().zip(&ids) {
            assert!(line.starts_with(&format!("{id} 65535 ")), "{line}");
        }
        assert_eq!(lines[form.most - 1], "65535 65535 10000 65535 65535");
    }
}

/// The longest trail is asked of an input of the most bytes; one byte more is refused.
#[test]
fn an_input_of_the_most_bytes() {
    let largest = FORMS.into_iter().max_by_key(|form| form.largest_network());
    let (plan, list) = known::longest_trail(largest.expect("a form"));
    let mut input = Input::trail(&plan, u16::MAX, &list).bytes();
    let bound = TRAIL.bound().expect("a program's bound");
    assert_eq!(input.len(), bound);
    assert_eq!(line(&TRAIL.answer(&input)), "65535 65535 10000 65535 65535");
    input.push(0);
    assert_eq!(line(&TRAIL.answer(&input)), format!("refused 5 {bound}"));
}

#[test]
fn a_trail_has_the_steps_that_the_lines_say() {
    let (network, list) = (known::chain().record(), list_record(&known::chain_list()));
    let steps = [(2, route(1)), (1, route(0))].map(|(id, route)| Step { id, route });
    assert_eq!(steps_or_verdict(&network, &list, 2, TOP), Ok(steps.into()));
    let (number, place) = (18, 7);
    let refused = Verdict::Refused(Refusal { number, place });
    assert_eq!(steps_or_verdict(&network, &list, 7, TOP), Err(refused));
}

#[test]
fn a_cost_over_the_top_is_not_supplied() {
    let (plan, list) = (known::chain(), known::chain_list());
    let (network, list) = (plan.record(), list_record(&list));
    let verdict = steps_or_verdict(&network, &list, 3, 1).expect_err("cost 2 is over it");
    assert_eq!(verdict.judged(), 3);
}
