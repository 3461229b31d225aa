//! Groups of plans made by hand.

use crate::cases::Stream;
use crate::form::Form;
use crate::input::Input;
use crate::known::{self, feed};
use crate::plan::{Listed, Node, Plan};
use crate::route::{Demand, Policy, Promise, Route};

/// The plans of the bench examples.
pub fn known_plans(stream: &mut Stream, form: Form) {
    let (chain, list) = (known::chain().of(form), known::chain_list());
    let nothing: Vec<_> = list.iter().map(|(id, _)| (*id, None)).collect();
    for list in [&list, &nothing] {
        stream.add_parts(&Input::judge(&chain, list));
    }
    for asked in [0, 1, 2, 63, 64, 255] {
        stream.add_parts(&Input::cut(&chain, asked, &known::chain_sheet()));
    }
    let routes = [known::STRAIGHT, known::AROUND];
    for (plan, others) in [(known::two_answers(), 2), (known::bad_gadget(), 3)] {
        let plan = plan.of(form);
        for choice in 0..1 << others {
            let held: Vec<_> = (0..others).map(|bit| routes[choice >> bit & 1]).collect();
            stream.add_parts(&Input::judge(&plan, &known::around_list(&held)));
        }
    }
}

/// The chain and one without its start, with its list and with no route anywhere; of box 2 nothing
/// is promised or asked, or a route, or none.
pub fn known_counted(stream: &mut Stream, form: Form) {
    let list = known::chain_list();
    let nothing: Vec<_> = list.iter().map(|(id, _)| (*id, None)).collect();
    let held = list[1].1;
    let (ceiling, tags) = (1, 0);
    for start in [Some(known::START), None] {
        for promise in [Promise::Nothing, Promise::Holds(held), Promise::Holds(None)] {
            for demand in [
                Demand::Nothing,
                Demand::Route { ceiling, tags },
                Demand::NoRoute,
            ] {
                let mut plan = known::chain().of(form);
                plan.nodes[0].route = start;
                plan.nodes[1].promise = promise;
                plan.nodes[1].demand = demand;
                plan.nodes[2].demand = Demand::Nothing;
                stream.add_parts(&Input::census(&plan, &list));
                stream.add_parts(&Input::census(&plan, &nothing));
            }
        }
    }
}

/// Two boxes that hold a route which only one of them started, or neither, over wires that add 0, 1
/// or the most, with or without a second policy, which no wire uses.
pub fn known_pairs(stream: &mut Stream, form: Form) {
    for start in [None, Some(known::QUOTED)] {
        for added in [0, 1, u16::MAX] {
            for unused in [&[][..], &[0], &[1]] {
                let adds: Vec<u16> = [&[added], unused].concat();
                let policies: Vec<_> = adds.into_iter().map(Policy::adding).collect();
                let mut plan = known::pair(&policies).of(form);
                plan.nodes[0].route = start;
                let list = known::pair_list(Some(known::QUOTED));
                let sheet = [(1, 0, list[0].1), (2, 1, list[1].1)];
                stream.add_parts(&Input::judge(&plan, &list));
                stream.add_parts(&Input::census(&plan, &list));
                stream.add_parts(&Input::cut(&plan, 1, &sheet));
            }
        }
    }
}

/// The trail of every id around a plan's own: boxes, inputs and nobody.
fn each_traced(stream: &mut Stream, plan: &Plan, list: &[Listed]) {
    let last = plan.nodes.iter().map(|node| node.id).max();
    for id in 0..=last.expect("a node") + 1 {
        stream.add_parts(&Input::trail(plan, id, list));
    }
}

/// Every box of the plans by name, under lists that pass. The chain has one that fails and one that
/// lacks an entry, too, and one of the two answers' lists fails.
pub fn known_traced(stream: &mut Stream, form: Form) {
    let (chain, list) = (known::chain().of(form), known::chain_list());
    let nothing: Vec<_> = list.iter().map(|(id, _)| (*id, None)).collect();
    for list in [&list, &nothing, &list[..2].to_vec()] {
        each_traced(stream, &chain, list);
    }
    let (routes, plan) = ([known::STRAIGHT, known::AROUND], known::two_answers());
    for (one, other) in [(0, 0), (0, 1), (1, 0)] {
        let list = known::around_list(&[routes[one], routes[other]]);
        each_traced(stream, &plan.clone().of(form), &list);
    }
    each_traced(stream, &known::junction().of(form), &known::junction_list());
    each_traced(stream, &known::fat_tree().of(form), &known::fat_tree_list());
}

/// The chain's parts, in both orders, as they are and after each of these edits.
pub fn known_joined(stream: &mut Stream, form: Form) {
    for edit in EDITS {
        let mut parts = known::chain_parts().map(|part| part.of(form));
        edit(&mut parts);
        let [first, second] = &parts;
        stream.add_parts(&Input::join(first, second));
        stream.add_parts(&Input::join(second, first));
    }
}

/// Another route than any of the chain's.
const OTHER: Option<Route> = Some(Route::new(100, 9, 1, 0));

/// In the first part row 1 is box 2, which the second assumes, and row 2 assumes box 3; in the second
/// row 0 assumes box 2, and row 1 is box 3.
const EDITS: [fn(&mut [Plan; 2]); 27] = [
    |_| {},
    // Owned by both: box 3; boxes 2 and 3; box 3, with box 2 unmatched.
    |[first, _]| first.nodes[2].own = true,
    |[first, second]| {
        first.nodes[2].own = true;
        second.nodes[0].own = true;
    },
    |[first, _]| {
        first.nodes[2].own = true;
        first.nodes[1].promise = Promise::Nothing;
    },
    // The owner promises nothing, where a route is assumed and where none is.
    |[first, _]| first.nodes[1].promise = Promise::Nothing,
    |[first, second]| {
        first.nodes[1].promise = Promise::Nothing;
        second.nodes[0].route = None;
    },
    // The owner promises another route; none where one is assumed; one where none is; none where none is.
    |[first, _]| first.nodes[1].promise = Promise::Holds(OTHER),
    |[first, _]| first.nodes[1].promise = Promise::Holds(None),
    |[_, second]| second.nodes[0].route = None,
    |[first, second]| {
        first.nodes[1].promise = Promise::Holds(None);
        second.nodes[0].route = None;
    },
    // Box 3, which the other part owns; both boxes; both by what is assumed.
    |[_, second]| second.nodes[1].promise = Promise::Nothing,
    |[first, second]| {
        first.nodes[1].promise = Promise::Nothing;
        second.nodes[1].promise = Promise::Nothing;
    },
    |[first, second]| {
        first.nodes[2].route = OTHER;
        second.nodes[0].route = OTHER;
    },
    // An input of both: the same route, another, none and one, none.
    |parts| feed(parts, 4, [OTHER, OTHER]),
    |parts| feed(parts, 4, [OTHER, Some(known::START)]),
    |parts| feed(parts, 4, [OTHER, None]),
    |parts| feed(parts, 4, [None, None]),
    // Two unmatched: an input of both below box 2, or above it.
    |parts| {
        feed(parts, 0, [OTHER, None]);
        parts[0].nodes[1].promise = Promise::Nothing;
    },
    |parts| {
        feed(parts, 9, [OTHER, None]);
        parts[0].nodes[1].promise = Promise::Nothing;
    },
    // An input of one alone.
    |[first, _]| {
        first.nodes.push(Node::input(7, OTHER));
        first.wire(7, 1, 0);
    },
    // Policies: one more, another field, another order, another one that no wire uses; the same one.
    |[_, second]| second.policies.push(Policy::adding(1)),
    |[first, _]| first.policies[0].set = 1,
    |[first, second]| {
        first.policies.push(Policy::adding(2));
        second.policies.insert(0, Policy::adding(2));
    },
    |[first, second]| {
        first.policies.push(Policy::adding(2));
        second.policies.push(Policy::adding(3));
    },
    |[first, second]| {
        first.policies.push(Policy::adding(2));
        second.policies.push(Policy::adding(2));
    },
    // An unmatched box and other policies.
    |[first, second]| {
        second.nodes[1].promise = Promise::Nothing;
        first.policies.push(Policy::adding(2));
    },
    // No box in common.
    |[_, second]| {
        second.nodes[0].id = 8;
        second.nodes[1].id = 9;
        second.edges.clear();
        second.wire(8, 9, 0);
    },
];
