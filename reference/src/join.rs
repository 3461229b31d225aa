//! Joining: laying two networks down as one.

use crate::form::{EDGE, MOST, MOST_EDGES};
use crate::lay::put;
use crate::record::{number_at, read_network, Network, Node, Table};
use crate::refusal::{refuse, Refusal};

/// The nodes of both networks by rising id: how many there are, and as many of them as a record may
/// have.
struct Joint<'a> {
    count: usize,
    nodes: [&'a [u8]; MOST],
}

/// Writes the joint network into the front of `out` and gives its length. A refused call leaves
/// `out` as it was, and so does a successful one behind the record.
pub fn join(first: &[u8], second: &[u8], out: &mut [u8]) -> Result<usize, Refusal> {
    let first = read_network(first, &mut Table::empty())?;
    let second = read_network(second, &mut Table::empty())?;
    let joint = meet(&first, &second)?;
    if first.policy_part() != second.policy_part() {
        return refuse(23, 0);
    }
    // No edge is in both, since no box is owned by both.
    let edges = first.edges().len() + second.edges().len();
    let (form, policies) = (first.form, first.policies().len());
    if joint.count > form.most {
        return refuse(24, joint.count);
    }
    if edges > MOST_EDGES {
        return refuse(24, edges);
    }
    let total = form.network(policies, joint.count, edges);
    if out.len() < total {
        return refuse(20, total);
    }
    let rest = put(out, &form.network_head(policies, joint.count, edges));
    let rest = put(rest, first.policy_part());
    let rest = put_nodes(rest, &joint, form.node());
    put_edges(rest, first.edge_part(), second.edge_part());
    Ok(total)
}

impl<'a> Joint<'a> {
    #[inline]
    fn add(&mut self, node: &'a [u8]) {
        if let Some(place) = self.nodes.get_mut(self.count) {
            *place = node;
        }
        self.count += 1;
    }
}

/// Walks both networks side by side, or gives the refusal 21, which comes before a 22 at a lower id.
fn meet<'a>(first: &Network<'a>, second: &Network<'a>) -> Result<Joint<'a>, Refusal> {
    let mut joint = Joint {
        count: 0,
        nodes: [&[]; MOST],
    };
    let (mut ones, mut others) = (first.node_rows(), second.node_rows());
    let (mut one, mut other) = (ones.next(), others.next());
    let mut unmatched = None;
    while let (Some(here), Some(there)) = (one, other) {
        let (id, other_id) = (number_at(here, 0), number_at(there, 0));
        if id < other_id {
            joint.add(here);
            one = ones.next();
        } else if id > other_id {
            joint.add(there);
            other = others.next();
        } else {
            let pair = (first.read(here), second.read(there));
            if pair.0.is_own() && pair.1.is_own() {
                return refuse(21, id.into());
            }
            if unmatched.is_none() && !matched(pair.0, pair.1) {
                unmatched = Some(id);
            }
            // The own one stays, or of two inputs the first.
            joint.add(if pair.1.is_own() { there } else { here });
            (one, other) = (ones.next(), others.next());
        }
    }
    one.into_iter().chain(ones).for_each(|node| joint.add(node));
    other
        .into_iter()
        .chain(others)
        .for_each(|node| joint.add(node));
    match unmatched {
        Some(id) => refuse(22, id.into()),
        None => Ok(joint),
    }
}

/// Whether what is assumed of a box is what its owner promises, or what the other network assumes.
/// An owner without a promise matches nothing.
fn matched(one: Node, other: Node) -> bool {
    match (one.is_own(), other.is_own()) {
        (true, _) => one.has_promise() && one.promised_bytes == other.route_bytes,
        (_, true) => other.has_promise() && other.promised_bytes == one.route_bytes,
        _ => one.route_bytes == other.route_bytes,
    }
}

fn put_nodes<'a>(mut out: &'a mut [u8], joint: &Joint, size: usize) -> &'a mut [u8] {
    for node in &joint.nodes[..joint.count] {
        let (here, rest) = out.split_at_mut(size);
        here.copy_from_slice(node);
        out = rest;
    }
    out
}

/// All edges to one box stand in one of the two networks, so whole runs are copied at a time.
fn put_edges<'a>(mut out: &mut [u8], mut one: &'a [u8], mut other: &'a [u8]) {
    while let (Some(here), Some(there)) = (first_to(one), first_to(other)) {
        let (lower, end) = if here < there {
            (&mut one, there)
        } else {
            (&mut other, here)
        };
        let (edges, _) = lower.as_chunks::<EDGE>();
        let run = edges.iter().take_while(|edge| to(edge) < end).count();
        let (run, rest) = lower.split_at(EDGE * run);
        out = put(out, run);
        *lower = rest;
    }
    out = put(out, one);
    put(out, other);
}

/// The to end of an edge.
fn to(edge: &[u8; EDGE]) -> u16 {
    let [high, low, ..] = *edge;
    u16::from_be_bytes([high, low])
}

/// The to end of the first edge, where there is one.
fn first_to(edges: &[u8]) -> Option<u16> {
    edges.first_chunk().map(to)
}
