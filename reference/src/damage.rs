//! Damages: changes to an input that call for one refusal or another. Which one is given back is
//! for the check to say; a damage may hide behind another, or find nothing of its sort to change.

use crate::form::{length_field, Form, ENTRIES_HEAD, NETWORK_HEAD, VERSION_AT};
use crate::input::Input;
use crate::random::Random;

mod entries;
mod layout;
mod naming;
mod network;

pub use network::{policy_adds_nothing, policy_flag, policy_preference};

pub type Damage = fn(&mut Input, &mut Random);

/// All damages, with names for the tests to tell them by.
pub const ALL: [(&str, Damage); 40] = [
    ("network under 10 bytes", short),
    ("network under its total", under_total),
    ("network's version", |i, r| version(&mut i.network, r)),
    ("network's count over its bound", network::count_over),
    ("network's count off", network::count_off),
    ("network's length off", |i, r| length(&mut i.network, r)),
    ("policy's flag", network::policy_flag),
    ("policy's preference", network::policy_preference),
    ("policy's cost added", network::policy_adds_nothing),
    ("node's order", network::node_order),
    ("node's kind", network::node_kind),
    ("node's route", network::node_route),
    ("node's promise flag", network::node_flag),
    ("node's promised route", network::node_promised),
    ("node's demand", network::node_demand),
    ("node's ceiling or tags", network::node_asks),
    ("input with promise or demand", network::input_asks),
    ("no own node", network::no_own_node),
    ("no node", network::no_node),
    ("edge's order", network::edge_order),
    ("edge to nobody", network::edge_to),
    ("edge from nobody", network::edge_from),
    ("edge to itself", network::edge_loop),
    ("edge to an input", network::edge_to_input),
    ("edge's policy", network::edge_policy),
    ("input without an edge out", network::idle_input),
    ("second under 7 bytes", second_short),
    ("second under its total", second_under_total),
    ("second's version", |i, r| version(&mut i.second, r)),
    ("second's count over its bound", entries::count_over),
    ("second's count off", entries::count_off),
    ("second's length off", |i, r| length(&mut i.second, r)),
    ("bytes after the second", longer),
    ("entry's order", entries::order),
    ("entry's route", entries::route),
    ("entry's fragment", entries::fragment),
    ("entry missing", entries::missing),
    ("fragment asked is absent", entries::asked_absent),
    ("fragment asked is over 63", entries::asked_high),
    ("promise other than the note", network::promise),
];

/// The damages that look at a network alone: those before the first to a second record.
pub fn to_networks() -> Vec<(&'static str, Damage)> {
    let alone = |(name, _): &(&str, Damage)| !name.starts_with("second");
    ALL.into_iter().take_while(alone).collect()
}

/// Damages to the id that names a box. They stand apart, since only some calls have one.
pub const NAMING: [(&str, Damage); 3] = [
    ("id of nobody", naming::nobody),
    ("id of an input", naming::input),
    ("input that ends in the id", naming::cut_off),
];

fn short(input: &mut Input, random: &mut Random) {
    leave_network(input);
    input.network.truncate(random.below(NETWORK_HEAD));
}

fn under_total(input: &mut Input, random: &mut Random) {
    leave_network(input);
    cut_off(&mut input.network, NETWORK_HEAD, random);
}

fn second_short(input: &mut Input, random: &mut Random) {
    input.second.truncate(random.below(ENTRIES_HEAD));
}

fn second_under_total(input: &mut Input, random: &mut Random) {
    cut_off(&mut input.second, ENTRIES_HEAD, random);
}

fn leave_network(input: &mut Input) {
    input.between.clear();
    input.second.clear();
}

/// Takes bytes from the end, the last one at least, and leaves the head.
fn cut_off(record: &mut Vec<u8>, head: usize, random: &mut Random) {
    if record.len() > head {
        record.truncate(random.within(head, record.len() - 1));
    }
}

fn longer(input: &mut Input, random: &mut Random) {
    let more = random.within(1, input.form.entry(input.lead) + 1);
    input.second.extend((0..more).map(|_| random.byte()));
}

fn version(record: &mut [u8], random: &mut Random) {
    let other = *random.pick(&[0, 2, 3, 255]);
    set(record, VERSION_AT, &[other]);
}

/// Another length: near the right one, or far off.
fn length(record: &mut [u8], random: &mut Random) {
    let Some(&field) = record.first_chunk() else {
        return;
    };
    let right = u32::from_be_bytes(field);
    let near = random.within(1, 12) as u32;
    let other = match random.below(6) {
        0 => right.wrapping_add(near),
        1 | 2 => right.wrapping_sub(near),
        3 => right ^ 1 << random.below(32),
        4 => *random.pick(&[0, 3, 5, 6, u32::MAX, u32::MAX - 3]),
        _ => right.wrapping_add(4),
    };
    set(record, 0, &other.to_be_bytes());
}

/// Makes the length right again.
fn mend_length(record: &mut [u8]) {
    set(record, 0, &length_field(record.len()));
}

/// Writes bytes over those at an offset, where the record is long enough.
fn set(record: &mut [u8], offset: usize, bytes: &[u8]) {
    if let Some(part) = record.get_mut(offset..offset + bytes.len()) {
        part.copy_from_slice(bytes);
    }
}

/// The 16-bit number at an offset, or 0 where the record ends before it.
fn number(record: &[u8], offset: usize) -> u16 {
    match record.get(offset..offset + 2) {
        Some(bytes) => u16::from_be_bytes([bytes[0], bytes[1]]),
        None => 0,
    }
}

/// As many bytes as a route has that are none: a present byte over 1, or bytes behind a zero.
fn ill_route(form: Form, random: &mut Random) -> Vec<u8> {
    let mut route = vec![0; form.route];
    if random.one_in(2) {
        route[0] = random.within(2, 255) as u8
    } else {
        route[random.within(1, form.route - 1)] = random.within(1, 255) as u8
    }
    route
}
