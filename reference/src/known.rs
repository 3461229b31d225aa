//! Plans by name: those that the bench examples speak of, and those that trails and joins are tried on.

use crate::form::{Form, MOST_EDGES, MOST_POLICIES};
use crate::plan::{Listed, Node, Noted, Plan};
use crate::route::{Demand, Policy, Promise, Route, TOP};
use crate::settle;
use crate::shapes;

/// Where routes start in the plans below, but for the longest trail.
pub const START: Route = Route::new(100, 0, 1, 0);

/// Boxes 1, 2, 3 in a row; wires add 1; box 3 must hold a route of cost 2 at most.
pub fn chain() -> Plan {
    let mut plan = Plan {
        policies: vec![Policy::adding(1)],
        nodes: vec![
            Node::own(1, Some(START)),
            Node::own(2, None),
            Node::own(3, None),
        ],
        ..Plan::default()
    };
    plan.nodes[2].demand = Demand::Route {
        ceiling: 2,
        tags: 0,
    };
    for (from, to) in [(1, 2), (2, 1), (2, 3), (3, 2)] {
        plan.wire(from, to, 0);
    }
    plan
}

/// What the chain's boxes come to hold: costs 0, 1 and 2.
pub fn chain_list() -> Vec<Listed> {
    (0..3).map(|cost| (cost + 1, chain_route(cost))).collect()
}

/// The chain cut behind box 2.
pub fn chain_sheet() -> Vec<Noted> {
    (0..3)
        .map(|cost| (cost + 1, u8::from(cost == 2), chain_route(cost)))
        .collect()
}

/// The two parts that this makes of the chain. Boxes 2 and 3 promise their notes, and each part assumes
/// the other's.
pub fn chain_parts() -> [Plan; 2] {
    let [one, two, three] = [0, 1, 2].map(|row| chain().nodes[row].clone());
    let promising = |node: Node, cost| Node {
        promise: Promise::Holds(chain_route(cost)),
        ..node
    };
    let mut first = Plan {
        policies: chain().policies,
        nodes: vec![one, promising(two, 1), Node::input(3, chain_route(2))],
        ..Plan::default()
    };
    for (from, to) in [(2, 1), (1, 2), (3, 2)] {
        first.wire(from, to, 0);
    }
    let mut second = Plan {
        policies: chain().policies,
        nodes: vec![Node::input(2, chain_route(1)), promising(three, 2)],
        ..Plan::default()
    };
    second.wire(2, 3, 0);
    [first, second]
}

/// Gives each of these parts an input with this id, and the routes that they assume of it.
pub fn feed(parts: &mut [Plan; 2], id: u16, assumed: [Option<Route>; 2]) {
    for ((part, route), to) in parts.iter_mut().zip(assumed).zip([1, 3]) {
        part.nodes.push(Node::input(id, route));
        part.wire(id, to, 0);
    }
}

/// The route of the plans' start at this cost.
fn chain_route(cost: u16) -> Option<Route> {
    Some(Route::new(100, cost, 1, 0))
}

/// Boxes 1 and 2 with wires both ways by policy 0. Nothing starts anywhere.
pub fn pair(policies: &[Policy]) -> Plan {
    let mut plan = Plan {
        policies: policies.to_vec(),
        nodes: vec![Node::own(1, None), Node::own(2, None)],
        ..Plan::default()
    };
    plan.wire(1, 2, 0);
    plan.wire(2, 1, 0);
    plan
}

/// What each of the pair would hold, quoting the other.
pub const QUOTED: Route = Route::new(100, 5, 1, 0);

/// The list in which both boxes of the pair hold this route.
pub fn pair_list(held: Option<Route>) -> Vec<Listed> {
    vec![(1, held), (2, held)]
}

/// Boxes that come by their routes in every way there is; wires add 1. Boxes 2 and 6 start with a
/// route and input 4 is assumed to hold the same one. Box 3 has it from 2 and from 4, and box 5 from 4
/// and from 6 (it starts with a worse one). Box 7 starts with what 3 gives it, and gives it to box 1.
/// Box 8 has no wire and holds none.
pub fn junction() -> Plan {
    let mut plan = Plan {
        policies: vec![Policy::adding(1)],
        nodes: vec![
            Node::own(1, None),
            Node::own(2, chain_route(0)),
            Node::own(3, None),
            Node::input(4, chain_route(0)),
            Node::own(5, chain_route(5)),
            Node::own(6, chain_route(0)),
            Node::own(7, chain_route(2)),
            Node::own(8, None),
        ],
        ..Plan::default()
    };
    for (from, to) in [(2, 3), (4, 3), (4, 5), (6, 5), (3, 7), (7, 1)] {
        plan.wire(from, to, 0);
    }
    plan
}

pub fn junction_list() -> Vec<Listed> {
    let costs = [(1, 3), (2, 0), (3, 1), (5, 1), (6, 0), (7, 2)];
    let mut list: Vec<Listed> = costs.map(|(id, cost)| (id, chain_route(cost))).into();
    list.push((8, None));
    list
}

/// A fat-tree of four pods; wires add 1. Box 6, of the first pod, starts with a route.
pub fn fat_tree() -> Plan {
    let shape = shapes::fat_tree(4);
    let mut plan = Plan {
        policies: vec![Policy::adding(1)],
        nodes: (0..20).map(|id| Node::own(id, None)).collect(),
        ..Plan::default()
    };
    plan.nodes[6].route = Some(START);
    for (to, from) in shape.wires {
        plan.wire(from as u16, to as u16, 0);
    }
    plan
}

/// What the fat-tree's boxes come to hold: over the pod, the spine, another pod's upper boxes and
/// its lower ones.
pub fn fat_tree_list() -> Vec<Listed> {
    let costs = [2, 2, 2, 2, 1, 1, 0, 2].into_iter();
    let costs = costs.chain([3, 3, 4, 4].repeat(3));
    (0..).zip(costs.map(chain_route)).collect()
}

/// The longest trail, of as many boxes and wires as a network of this form can have, with a list that
/// passes. The box with the highest id starts a route, and each box has it from the one with the
/// next higher id, which is the last of its senders; all other wires lead away from the start.
pub fn longest_trail(form: Form) -> (Plan, Vec<Listed>) {
    let most = form.most as u16;
    let id = |row: u16| u16::MAX - (most - 1 - row);
    let mut plan = Plan {
        form,
        policies: (1..=MOST_POLICIES as u16).map(Policy::adding).collect(),
        nodes: (0..most).map(|row| Node::own(id(row), None)).collect(),
        ..Plan::default()
    };
    plan.nodes[form.most - 1].route = Some(Route::new(u16::MAX, 10_000, u16::MAX, u16::MAX));
    let onward = (1..most).map(|row| (row, row - 1));
    let away = (1..most).flat_map(|step| (step..most).map(move |row| (row - step, row)));
    for (from, to) in onward.chain(away).take(MOST_EDGES) {
        plan.wire(id(from), id(to), (from % MOST_POLICIES as u16) as u8);
    }
    let (held, settled) = settle::settle(&plan, TOP, form.most);
    assert!(settled, "a route reaches one box more in each round");
    let list = settle::listed(&plan, &held);
    (plan, list)
}

/// A box that goes straight to box 1.
pub const STRAIGHT: Route = Route::new(100, 1, 1, 0);
/// A box that goes through another, which goes straight.
pub const AROUND: Route = Route::new(200, 2, 1, 1);

/// Policy 0 is straight from box 1. Policy 1 is for routes that go straight so far: it marks
/// them, prefers them, and bars those that bear the mark.
fn around_policies() -> Vec<Policy> {
    let around = Policy {
        bar: 1,
        set: 1,
        preference: Some(200),
        ..Policy::adding(1)
    };
    vec![Policy::adding(1), around]
}

/// Boxes 2 and 3 each prefer to go through the other: two answers.
pub fn two_answers() -> Plan {
    let mut plan = around_box_1(2);
    plan.wire(2, 3, 1);
    plan.wire(3, 2, 1);
    plan
}

/// Boxes 2, 3 and 4 each prefer to go through the next: no answer.
pub fn bad_gadget() -> Plan {
    let mut plan = around_box_1(3);
    plan.wire(3, 2, 1);
    plan.wire(4, 3, 1);
    plan.wire(2, 4, 1);
    plan
}

/// Box 1 with its route, and so many others with a wire from it.
fn around_box_1(others: u16) -> Plan {
    let mut plan = Plan {
        policies: around_policies(),
        nodes: vec![Node::own(1, Some(START))],
        ..Plan::default()
    };
    for id in 2..2 + others {
        plan.nodes.push(Node::own(id, None));
        plan.wire(1, id, 0);
    }
    plan
}

/// The list in which box 1 holds its start and the others, from 2 on, these routes.
pub fn around_list(others: &[Route]) -> Vec<Listed> {
    let others = (2..).zip(others.iter().map(|route| Some(*route)));
    [(1, Some(START))].into_iter().chain(others).collect()
}
