//! Pairs of networks, and what keeps two from being joined.

use super::inputs::{self, largest_scene};
use crate::form::{Form, MOST_EDGES, MOST_POLICIES};
use crate::input::Input;
use crate::plan::{Node, Noted, Plan};
use crate::random::Random;
use crate::record::{read_network, Table};
use crate::route::{Policy, Promise};
use crate::scene::{self, other_route, Ids, Style};
use crate::shapes;

/// Two networks, by turns the first and the second of an input.
pub type Pair = [Plan; 2];

/// Two fragments of a scene of up to ten boxes. Boxes of a third are inputs of one, of both or of
/// neither.
pub fn fragments(form: Form, random: &mut Random) -> Pair {
    loop {
        let mut scene = inputs::small(form, random);
        if random.one_in(2) {
            scene.ask(3, random);
        }
        let numbers: Vec<u8> = scene.held.iter().map(|_| random.below(3) as u8).collect();
        let sheet = scene.sheet(&numbers);
        let parts = [0, 1].map(|number| fragment(&scene.plan, number, &sheet));
        if let [Some(first), Some(second)] = parts {
            return [first, second];
        }
    }
}

/// One fragment, where there is such a one.
pub fn fragment(plan: &Plan, number: u8, sheet: &[Noted]) -> Option<Plan> {
    let record = Input::cut(plan, number, sheet).answer();
    let network = read_network(&record, &mut Table::empty()).ok()?;
    Some(Plan::read(&network))
}

/// A change to two networks that fit together, after which they do not, as far as it finds something
/// of its sort to change.
pub type Obstacle = fn(&mut Pair, &mut Random);

/// All obstacles, with names for the tests to tell them by.
pub const OBSTACLES: [(&str, Obstacle); 8] = [
    ("box owned by both", own_twice),
    ("owner without a promise", withdraw),
    ("owner with another promise", promise_other),
    ("another assumption", assume_other),
    ("one policy more", policy_more),
    ("policies in another order", policy_order),
    ("policy with another field", policy_field),
    ("unused policy of each", policy_unused),
];

/// Some id that the one network owns becomes an own box of the other, too.
fn own_twice(pair: &mut Pair, random: &mut Random) {
    let [here, there] = sides(pair, random);
    let owned: Vec<u16> = there.own_ids().collect();
    let id = *random.pick(&owned);
    match here.row(id) {
        Some(row) => here.nodes[row].own = true,
        None => here.nodes.push(Node::own(id, None)),
    }
}

fn withdraw(pair: &mut Pair, random: &mut Random) {
    if let Some(owner) = some_owner(pair, random) {
        owner.promise = Promise::Nothing;
    }
}

fn promise_other(pair: &mut Pair, random: &mut Random) {
    if let Some(owner) = some_owner(pair, random) {
        if let Promise::Holds(route) = owner.promise {
            owner.promise = Promise::Holds(other_route(route, random));
        }
    }
}

/// Some input that the other network has as well, as an own box or as an input.
fn assume_other(pair: &mut Pair, random: &mut Random) {
    let [here, there] = sides(pair, random);
    let shared = |node: &Node| !node.own && there.row(node.id).is_some();
    if let Some(input) = some_node(here, shared, random) {
        input.route = other_route(input.route, random);
    }
}

fn policy_more(pair: &mut Pair, random: &mut Random) {
    let [here, _] = sides(pair, random);
    here.policies.push(scene::policy(Style::Wild, random));
}

fn policy_order(pair: &mut Pair, random: &mut Random) {
    let [here, _] = sides(pair, random);
    here.policies.rotate_left(1);
}

fn policy_field(pair: &mut Pair, random: &mut Random) {
    let [here, _] = sides(pair, random);
    let row = random.below(here.policies.len());
    let policy = &mut here.policies[row];
    let bit = 1 << random.below(16);
    match random.below(6) {
        0 => policy.need ^= bit,
        1 => policy.bar ^= bit,
        2 => policy.clear ^= bit,
        3 => policy.set ^= bit,
        4 => policy.preference = policy.preference.xor(Some(bit)),
        _ => policy.cost = policy.cost.checked_add(1).unwrap_or(1),
    }
}

fn policy_unused(pair: &mut Pair, _: &mut Random) {
    for (cost, plan) in (1..).zip(pair) {
        plan.policies.push(Policy::adding(cost));
    }
}

/// One of the two, and the other.
fn sides<'a>(pair: &'a mut Pair, random: &mut Random) -> [&'a mut Plan; 2] {
    let [first, second] = pair;
    if random.one_in(2) {
        [first, second]
    } else {
        [second, first]
    }
}

/// Some own box that the other network has as an input.
fn some_owner<'a>(pair: &'a mut Pair, random: &mut Random) -> Option<&'a mut Node> {
    let [here, there] = sides(pair, random);
    let assumed = |node: &Node| node.own && there.row(node.id).is_some();
    some_node(here, assumed, random)
}

fn some_node<'a>(
    plan: &'a mut Plan,
    wanted: impl Fn(&Node) -> bool,
    random: &mut Random,
) -> Option<&'a mut Node> {
    let mut nodes: Vec<&mut Node> = plan.nodes.iter_mut().filter(|n| wanted(n)).collect();
    (!nodes.is_empty()).then(|| nodes.swap_remove(random.below(nodes.len())))
}

/// So many own boxes with ids from `first` on, and behind them an input of each of these ids, without
/// any route; edges among the own boxes, and one from each input to the first of them.
pub fn bare(form: Form, first: u16, boxes: u16, edges: usize, inputs: &[u16]) -> Plan {
    let mut plan = Plan {
        form,
        policies: vec![Policy::adding(1)],
        nodes: (first..first + boxes)
            .map(|id| Node::own(id, None))
            .collect(),
        edges: vec![],
    };
    let steps = (1..boxes).flat_map(|step| (0..boxes).map(move |row| (row, step)));
    for (row, step) in steps.take(edges - inputs.len()) {
        plan.wire(first + (row + step) % boxes, first + row, 0);
    }
    for id in inputs {
        plan.nodes.push(Node::input(*id, None));
        plan.wire(*id, first, 0);
    }
    plan
}

/// Two halves of the largest record, its boxes by turns.
pub fn halves(form: Form, random: &mut Random) -> Pair {
    let shape = shapes::scattered(form.most, MOST_EDGES, random);
    let scene = largest_scene(form, &shape, Ids::Sparse, 0, random);
    let numbers: Vec<u8> = (0..form.most).map(|row| (row % 2) as u8).collect();
    let sheet = scene.sheet(&numbers);
    [0, 1].map(|number| fragment(&scene.plan, number, &sheet).expect("a half of the boxes"))
}

/// Two of the largest records, with no box in common.
pub fn two_largest(form: Form) -> Pair {
    let most = form.most as u16;
    [0, most].map(|first| {
        let mut plan = bare(form, first, most, MOST_EDGES, &[]);
        plan.policies = vec![Policy::adding(1); MOST_POLICIES];
        plan
    })
}
