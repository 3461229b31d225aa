//! Records: their frame, and the check of a network, a sheet and a route list.
//!
//! A check answers the first refusal that applies, in the order of the numbers, save that a
//! record cut off under its total is number 1 (11) only after 2 to 4 (12 to 14) have been looked
//! for. What passes is read without copying: the views below lend parts of the record.

use crate::form::{Form, EDGE, ENTRIES_HEAD, LAST_FRAGMENT, NETWORK_HEAD, POLICY};
use crate::form::{COUNT_AT, FRAGMENT, MOST, MOST_EDGES, MOST_POLICIES, SHEET_LEAD, VERSION_AT};
use crate::refusal::{refuse, Refusal};
use crate::route::{self, Policy};

mod pair;
mod view;

pub use pair::{Cut, Pair, Proposal};
pub(crate) use view::number_at;
use view::{part_at, rows};
pub use view::{Edge, Entries, Network, Node, Table};

/// Reads a network and fills the table, or gives the first of the refusals 1 to 10.
#[inline]
pub fn read_network<'a>(bytes: &'a [u8], table: &mut Table) -> Result<Network<'a>, Refusal> {
    let form = check_frame(bytes, 1, NETWORK_HEAD, network_total)?;
    let (policies, nodes, _) = counts(bytes);
    let first_node = form.network(policies, 0, 0);
    let first_edge = form.network(policies, nodes, 0);
    let network = Network {
        form,
        policies: &bytes[NETWORK_HEAD..first_node],
        nodes: &bytes[first_node..first_edge],
        edges: &bytes[first_edge..],
    };
    check_policies(network.policies)?;
    check_nodes(&network, first_node, table)?;
    let sends = check_edges(&network, first_edge, table)?;
    match (0..nodes).find(|&row| !table.is_own(row) && !sends[row]) {
        Some(row) => refuse(10, form.network(policies, row, 0)),
        None => Ok(network),
    }
}

/// Whether a network is sound, for a caller who wants no more than that.
pub fn check_network(bytes: &[u8]) -> Result<(), Refusal> {
    read_network(bytes, &mut Table::empty()).map(|_| ())
}

/// The record's form, or the refusals 1 to 5, or 11 to 15: `first` is the number of the first of
/// the five. `total` tells the bytes that the counts ask for, or nothing where a count is over its
/// bound.
fn check_frame(
    bytes: &[u8],
    first: u8,
    head: usize,
    total: impl Fn(Form, &[u8]) -> Option<usize>,
) -> Result<Form, Refusal> {
    if bytes.len() < head {
        return refuse(first, bytes.len());
    }
    let Some(form) = Form::of(bytes) else {
        return refuse(first + 1, VERSION_AT);
    };
    let Some(total) = total(form, bytes) else {
        return refuse(first + 2, COUNT_AT);
    };
    if u32::from_be_bytes(*part_at(bytes, 0)) as usize != total - 4 {
        return refuse(first + 3, 0);
    }
    if bytes.len() < total {
        return refuse(first, bytes.len());
    }
    if bytes.len() > total {
        return refuse(first + 4, total);
    }
    Ok(form)
}

/// Policy, node and edge count.
fn counts(bytes: &[u8]) -> (usize, usize, usize) {
    let nodes = number_at(bytes, COUNT_AT).into();
    let edges = number_at(bytes, COUNT_AT + 2).into();
    (bytes[COUNT_AT + 4].into(), nodes, edges)
}

fn network_total(form: Form, bytes: &[u8]) -> Option<usize> {
    let (policies, nodes, edges) = counts(bytes);
    let bounded = policies <= MOST_POLICIES && nodes <= form.most && edges <= MOST_EDGES;
    bounded.then(|| form.network(policies, nodes, edges))
}

fn entries_total<const LEAD: usize>(form: Form, bytes: &[u8]) -> Option<usize> {
    let count = number_at(bytes, COUNT_AT).into();
    (count <= form.most).then(|| form.entries(LEAD, count))
}

fn check_policies(part: &[u8]) -> Result<(), Refusal> {
    for (row, policy) in rows(part).enumerate() {
        if !Policy::well_formed(policy) {
            return refuse(6, NETWORK_HEAD + POLICY * row);
        }
    }
    Ok(())
}

/// The refusals 7 and 8; `first` is the offset of the node part. An id that does not rise makes
/// the later of the two nodes ill formed.
fn check_nodes(network: &Network, first: usize, table: &mut Table) -> Result<(), Refusal> {
    let mut lowest = 0;
    for (row, node) in network.nodes().enumerate() {
        let id = node.id();
        if u32::from(id) < lowest || !node_well_formed(node) {
            return refuse(7, first + network.form.node() * row);
        }
        lowest = u32::from(id) + 1;
        table.put(row, node);
    }
    if !table.has_own() {
        return refuse(8, first);
    }
    Ok(())
}

/// All that the bytes of a node must satisfy, apart from the order of ids.
fn node_well_formed(node: Node) -> bool {
    let [demand, asks @ ..] = *node.asks;
    let promise = match node.flag {
        0 => route::is_none(node.promised_bytes),
        1 => route::well_formed(node.promised_bytes),
        _ => false,
    };
    let demanded = match demand {
        0 | 2 => asks == [0; 4],
        1 => true,
        _ => false,
    };
    let kind = match node.kind() {
        0 => true,
        1 => node.flag == 0 && demand == 0,
        _ => false,
    };
    kind && promise && demanded && route::well_formed(node.route_bytes)
}

/// Refusal 9, or which nodes have an edge out; `first` is the offset of the edge part.
fn check_edges(network: &Network, first: usize, table: &Table) -> Result<[bool; MOST], Refusal> {
    let policies = network.policies().len();
    let mut sends = [false; MOST];
    let mut lowest = 0;
    for (row, edge) in network.edges().enumerate() {
        let order = u64::from(edge.to) << 16 | u64::from(edge.from);
        let ends = (table.row(edge.to), table.row(edge.from));
        let (Some(to), Some(from)) = ends else {
            return refuse(9, first + EDGE * row);
        };
        let known = usize::from(edge.policy) < policies;
        if order < lowest || to == from || !table.is_own(to) || !known {
            return refuse(9, first + EDGE * row);
        }
        lowest = order + 1;
        sends[from] = true;
    }
    Ok(sends)
}

/// Reads a sheet or list, or gives the first of the refusals 11 to 16. Every entry is looked at,
/// also one for an id that no own node has.
pub fn read_entries<const LEAD: usize>(bytes: &[u8]) -> Result<Entries<'_, LEAD>, Refusal> {
    let form = check_frame(bytes, 11, ENTRIES_HEAD, entries_total::<LEAD>)?;
    let entries = Entries {
        form,
        part: &bytes[ENTRIES_HEAD..],
    };
    let mut lowest = 0;
    for (row, entry) in entries.rows().enumerate() {
        let id = u32::from(number_at(entry, 0));
        let numbered = LEAD != SHEET_LEAD || entry[FRAGMENT] <= LAST_FRAGMENT;
        if id < lowest || !numbered || !route::well_formed(&entry[LEAD..]) {
            return refuse(16, form.entries(LEAD, row));
        }
        lowest = id + 1;
    }
    Ok(entries)
}
