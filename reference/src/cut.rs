//! Cutting: laying down the network of one fragment.

use crate::form::{EDGE, KIND, MOST, ROUTE};
use crate::lay::put;
use crate::record::{Cut, Network, Node, Table};
use crate::refusal::{refuse, Refusal};
use crate::route;
use std::array::from_fn;

/// Stands for a number at the rows of inputs, which have none; no sheet has a number so high.
const UNNUMBERED: u8 = u8::MAX;

/// What the sheet and the wires say of each row.
struct Marks {
    asked: u8,
    number: [u8; MOST],
    /// A cut edge leaves the node.
    leaves: [bool; MOST],
    /// An edge leads from the node to one of the fragment's own nodes.
    feeds: [bool; MOST],
    /// How many edges have their to end in the fragment.
    edges: usize,
}

/// How a node of the network appears in a fragment.
enum Role {
    /// Byte for byte as in the network.
    Kept,
    /// An own node that has to promise its note.
    Promising,
    /// An own node of another fragment, assumed to hold its note.
    Assumed,
}

/// Writes fragment `asked` into the front of `out` and gives its length. A refused call leaves
/// `out` as it was, and so does a successful one behind the record.
pub fn cut(network: &[u8], sheet: &[u8], asked: u8, out: &mut [u8]) -> Result<usize, Refusal> {
    let mut table = Table::empty();
    let cut = Cut::read(network, sheet, &mut table)?;
    let network = &cut.network;
    let marks = mark(&cut, asked, &table)?;
    check_notes(&cut, &marks)?;
    let nodes = (0..MOST).filter(|row| marks.keeps(*row)).count();
    let policies = network.policies().len();
    let total = network.form.network(policies, nodes, marks.edges);
    if out.len() < total {
        return refuse(20, total);
    }
    let head = network.form.network_head(policies, nodes, marks.edges);
    let rest = put(out, &head);
    let rest = put(rest, network.policy_part());
    let rest = put_nodes(rest, &cut, &marks);
    put_edges(rest, network, &marks, &table);
    Ok(total)
}

impl Marks {
    /// An own node of the fragment.
    fn inside(&self, row: usize) -> bool {
        self.number[row] == self.asked
    }

    /// A node of the fragment.
    fn keeps(&self, row: usize) -> bool {
        self.inside(row) | self.feeds[row]
    }

    /// The role of a node that the fragment keeps.
    fn role(&self, row: usize, node: Node) -> Role {
        match (self.inside(row), self.number[row]) {
            (true, _) if self.leaves[row] && !node.has_promise() => Role::Promising,
            (true, _) | (false, UNNUMBERED) => Role::Kept,
            (false, _) => Role::Assumed,
        }
    }
}

/// Gathers the marks in one pass over the wires, or refuses with 18. A wire from an input is
/// never cut: the input goes with it.
fn mark(cut: &Cut, asked: u8, table: &Table) -> Result<Marks, Refusal> {
    let mut marks = Marks {
        asked,
        number: from_fn(|row| cut.fragment(row).unwrap_or(UNNUMBERED)),
        leaves: [false; MOST],
        feeds: [false; MOST],
        edges: 0,
    };
    if asked == UNNUMBERED || !marks.number.contains(&asked) {
        return refuse(18, asked.into());
    }
    for edge in cut.network.edges() {
        let (to, from) = (end(edge.to, table), end(edge.from, table));
        let (ahead, behind) = (marks.number[to], marks.number[from]);
        marks.leaves[from] |= behind != ahead && behind != UNNUMBERED;
        marks.feeds[from] |= ahead == asked;
        marks.edges += usize::from(ahead == asked);
    }
    Ok(marks)
}

/// Refusal 19: a promise of the network that another fragment would not be told.
fn check_notes(cut: &Cut, marks: &Marks) -> Result<(), Refusal> {
    for (row, node) in cut.network.nodes().enumerate() {
        let broken = || Some(node.promised_bytes) != cut.route_bytes(row);
        if marks.leaves[row] && node.has_promise() && broken() {
            return refuse(19, node.id().into());
        }
    }
    Ok(())
}

/// The row of an edge's end.
fn end(id: u16, table: &Table) -> usize {
    table.row(id).expect("both ends of an edge exist")
}

fn put_nodes<'a>(mut out: &'a mut [u8], cut: &Cut, marks: &Marks) -> &'a mut [u8] {
    let form = cut.network.form;
    let note = |row| cut.route_bytes(row).expect("an own node has an entry");
    let nodes = cut.network.nodes().enumerate();
    for (row, node) in nodes.filter(|(row, _)| marks.keeps(*row)) {
        let (bytes, rest) = out.split_at_mut(form.node());
        match marks.role(row, node) {
            Role::Kept => bytes.copy_from_slice(node.bytes),
            Role::Promising => {
                bytes.copy_from_slice(node.bytes);
                bytes[form.flag()] = 1;
                route::copy(note(row), &mut bytes[form.promised()..form.demand()]);
            }
            Role::Assumed => {
                bytes.fill(0);
                bytes[..KIND].copy_from_slice(&node.bytes[..KIND]);
                bytes[KIND] = 1;
                route::copy(note(row), &mut bytes[ROUTE..form.flag()]);
            }
        }
        out = rest;
    }
    out
}

/// The edges whose to end is in the fragment. Edges to one node follow each other, so whole runs
/// are copied at a time.
fn put_edges(mut out: &mut [u8], network: &Network, marks: &Marks, table: &Table) {
    let part = network.edge_part();
    let mut start = None;
    for (row, edge) in network.edges().enumerate() {
        match (start, marks.inside(end(edge.to, table))) {
            (None, true) => start = Some(row),
            (Some(first), false) => {
                out = put(out, &part[EDGE * first..EDGE * row]);
                start = None;
            }
            _ => {}
        }
    }
    if let Some(first) = start {
        put(out, &part[EDGE * first..]);
    }
}
