//! Damages to a network. They read the counts from the record and leave it alone where it has
//! been damaged too much to find their way in it.

use super::layout::{some_edge, some_node, some_policy, stranger, Layout};
use super::{ill_route, mend_length, number, set};
use crate::form::{Form, COUNT_AT, EDGE, KIND, MOST_EDGES, MOST_POLICIES, ROUTE};
use crate::input::Input;
use crate::random::Random;
use crate::route;
use crate::scene::{self, Style};

/// Where the counts stand.
const NODES: usize = COUNT_AT;
const EDGES: usize = COUNT_AT + 2;
const POLICIES: usize = COUNT_AT + 4;

/// A byte that is not under `from`, often the first.
fn high(from: usize, random: &mut Random) -> u8 {
    let any = random.within(from, 255);
    *random.pick(&[from, from, 255, any]) as u8
}

pub fn count_over(input: &mut Input, random: &mut Random) {
    let over = |most: usize, random: &mut Random| {
        let far = random.within(most + 1, 65_535);
        (*random.pick(&[most + 1, far]) as u16).to_be_bytes()
    };
    let (record, most) = (&mut input.network, input.form.most);
    match random.below(3) {
        0 => set(record, NODES, &over(most, random)),
        1 => set(record, EDGES, &over(MOST_EDGES, random)),
        _ => set(record, POLICIES, &[high(MOST_POLICIES + 1, random)]),
    }
}

pub fn count_off(input: &mut Input, random: &mut Random) {
    let record = &mut input.network;
    let (nodes, edges) = (number(record, NODES), number(record, EDGES));
    let policies = record.get(POLICIES).copied().unwrap_or(0);
    let change = random.within(1, 3) as u16;
    match random.below(3) {
        0 => set(record, NODES, &(nodes ^ change).to_be_bytes()),
        1 => set(record, EDGES, &(edges ^ change).to_be_bytes()),
        _ => set(record, POLICIES, &[policies ^ change as u8]),
    }
}

pub fn policy_flag(input: &mut Input, random: &mut Random) {
    if let Some(policy) = some_policy(input, random) {
        set(&mut input.network, policy + 8, &[high(2, random)]);
    }
}

pub fn policy_preference(input: &mut Input, random: &mut Random) {
    if let Some(policy) = some_policy(input, random) {
        let preference = 1u16 << random.below(16);
        let [p1, p0] = preference.to_be_bytes();
        set(&mut input.network, policy + 8, &[0, p1, p0]);
    }
}

pub fn policy_adds_nothing(input: &mut Input, random: &mut Random) {
    if let Some(policy) = some_policy(input, random) {
        set(&mut input.network, policy + 11, &[0, 0]);
    }
}

/// Gives a node the id of the one before it, or a lower one.
pub fn node_order(input: &mut Input, random: &mut Random) {
    if let Some(layout) = Layout::of(input).filter(|layout| layout.nodes > 1) {
        let row = random.within(1, layout.nodes - 1);
        let before = number(&input.network, layout.node(row - 1));
        let id = before.saturating_sub(random.below(2) as u16);
        set(&mut input.network, layout.node(row), &id.to_be_bytes());
    }
}

/// Writes bytes from a field on over those of some node of the kind, or of any.
fn set_node(input: &mut Input, kind: Option<u8>, field: usize, bytes: &[u8], random: &mut Random) {
    if let Some(node) = some_node(input, kind, random) {
        set(&mut input.network, node + field, bytes);
    }
}

pub fn node_kind(input: &mut Input, random: &mut Random) {
    let kind = high(2, random);
    set_node(input, None, KIND, &[kind], random);
}

pub fn node_route(input: &mut Input, random: &mut Random) {
    let route = ill_route(input.form, random);
    set_node(input, None, ROUTE, &route, random);
}

pub fn node_flag(input: &mut Input, random: &mut Random) {
    let flag = high(2, random);
    set_node(input, Some(0), input.form.flag(), &[flag], random);
}

/// A promise of something that is no route, or a route that is not promised.
pub fn node_promised(input: &mut Input, random: &mut Random) {
    let (flag, promised) = if random.one_in(2) {
        (1, ill_route(input.form, random))
    } else {
        (0, wild_route(input.form, random))
    };
    set_promise(input, flag, &promised, random);
}

fn wild_route(form: Form, random: &mut Random) -> Vec<u8> {
    route::bytes(form, Some(scene::route(Style::Wild, 0, random)))
}

/// Writes a promise flag and a promised route over those of some own node.
fn set_promise(input: &mut Input, flag: u8, promised: &[u8], random: &mut Random) {
    let bytes = [&[flag], promised].concat();
    set_node(input, Some(0), input.form.flag(), &bytes, random);
}

pub fn node_demand(input: &mut Input, random: &mut Random) {
    let demand = high(3, random);
    set_node(input, Some(0), input.form.demand(), &[demand], random);
}

/// A demand that has neither ceiling nor tags, with one of them all the same.
pub fn node_asks(input: &mut Input, random: &mut Random) {
    let mut bytes = [*random.pick(&[0, 2]), 0, 0, 0, 0];
    bytes[random.within(1, 4)] = random.within(1, 255) as u8;
    set_node(input, None, input.form.demand(), &bytes, random);
}

pub fn input_asks(input: &mut Input, random: &mut Random) {
    if random.one_in(2) {
        set_node(input, Some(1), input.form.flag(), &[1], random);
    } else {
        let demand = random.within(1, 2) as u8;
        set_node(input, Some(1), input.form.demand(), &[demand], random);
    }
}

/// Makes a node a well-formed input.
fn make_input(input: &mut Input, node: usize) {
    let (flag, end) = (input.form.flag(), input.form.node());
    set(&mut input.network, node + KIND, &[1]);
    set(&mut input.network, node + flag, &vec![0; end - flag]);
}

pub fn no_own_node(input: &mut Input, _: &mut Random) {
    if let Some(layout) = Layout::of(input) {
        (0..layout.nodes).for_each(|row| make_input(input, layout.node(row)));
    }
}

/// No node at all; the edges go, too, or stay and are not looked at.
pub fn no_node(input: &mut Input, random: &mut Random) {
    let Some(layout) = Layout::of(input) else {
        return;
    };
    let record = &mut input.network;
    record.drain(layout.node(0)..layout.edge(0));
    set(record, NODES, &[0, 0]);
    if random.one_in(2) {
        record.truncate(layout.node(0));
        set(record, EDGES, &[0, 0]);
    }
    mend_length(record);
}

/// Writes an edge over the one behind it, or swaps the two.
pub fn edge_order(input: &mut Input, random: &mut Random) {
    if let Some(edge) = some_edge(input, 1, random) {
        let pair = &mut input.network[edge - EDGE..edge + EDGE];
        if random.one_in(2) {
            pair.copy_within(..EDGE, EDGE)
        } else {
            pair.rotate_left(EDGE)
        }
    }
}

pub fn edge_to(input: &mut Input, random: &mut Random) {
    let id = stranger(input, random);
    if let Some(edge) = some_edge(input, 0, random) {
        set(&mut input.network, edge, &id.to_be_bytes());
    }
}

pub fn edge_from(input: &mut Input, random: &mut Random) {
    let id = stranger(input, random);
    if let Some(edge) = some_edge(input, 0, random) {
        set(&mut input.network, edge + 2, &id.to_be_bytes());
    }
}

pub fn edge_loop(input: &mut Input, random: &mut Random) {
    if let Some(edge) = some_edge(input, 0, random) {
        input.network.copy_within(edge..edge + 2, edge + 2);
    }
}

/// Makes the to end of some edge an input.
pub fn edge_to_input(input: &mut Input, random: &mut Random) {
    let Some(edge) = some_edge(input, 0, random) else {
        return;
    };
    let to = number(&input.network, edge);
    let layout = Layout::of(input).expect("it has an edge");
    for row in 0..layout.nodes {
        if number(&input.network, layout.node(row)) == to {
            make_input(input, layout.node(row));
        }
    }
}

pub fn edge_policy(input: &mut Input, random: &mut Random) {
    if let Some(edge) = some_edge(input, 0, random) {
        let policy = high(usize::from(input.network[POLICIES]), random);
        set(&mut input.network, edge + 4, &[policy]);
    }
}

/// Adds an input that no edge leaves.
pub fn idle_input(input: &mut Input, random: &mut Random) {
    let id = stranger(input, random);
    let (form, layout) = (input.form, Layout::of(input));
    let Some(layout) = layout.filter(|layout| layout.nodes < form.most) else {
        return;
    };
    let record = &mut input.network;
    let before = |row: &usize| number(record, layout.node(*row)) < id;
    let row = (0..layout.nodes).take_while(before).count();
    let mut node = vec![0; form.node()];
    node[..2].copy_from_slice(&id.to_be_bytes());
    node[KIND] = 1;
    let place = layout.node(row);
    record.splice(place..place, node);
    set(record, NODES, &(layout.nodes as u16 + 1).to_be_bytes());
    mend_length(record);
}

/// Has some own node promise any route, or none; its note is another, like as not.
pub fn promise(input: &mut Input, random: &mut Random) {
    let promised = if random.one_in(3) {
        route::bytes(input.form, None)
    } else {
        wild_route(input.form, random)
    };
    set_promise(input, 1, &promised, random);
}
