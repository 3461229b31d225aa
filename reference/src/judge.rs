//! Judging: does every own box hold what its neighbours make due, what it promised, and what is
//! asked of it?

use crate::form::{MOST, MOST_POLICIES};
use crate::record::{Edge, Node, Proposal, Table};
use crate::refusal::Refusal;
use crate::route::{self, Policy, Promise, Route};

/// What is wrong at the named box. The route is the due one, the promised one or the listed one.
#[derive(Clone, Copy, Debug, PartialEq, Eq)]
pub enum Fault {
    NotDue(Option<Route>),
    NotPromised(Option<Route>),
    NotMet(Option<Route>),
}

impl Fault {
    pub fn number(self) -> u8 {
        match self {
            Fault::NotDue(_) => 31,
            Fault::NotPromised(_) => 32,
            Fault::NotMet(_) => 33,
        }
    }

    pub fn route(self) -> Option<Route> {
        let (Fault::NotDue(route) | Fault::NotPromised(route) | Fault::NotMet(route)) = self;
        route
    }
}

/// The answer to a call. `judged` counts the own boxes up to the named one, that one included,
/// or all of them; of a refused call it is 0.
#[derive(Clone, Copy, Debug, PartialEq, Eq)]
pub enum Verdict {
    Pass {
        judged: usize,
    },
    Found {
        node: u16,
        judged: usize,
        fault: Fault,
    },
    Refused(Refusal),
}

impl Verdict {
    pub fn judged(self) -> usize {
        match self {
            Verdict::Pass { judged } | Verdict::Found { judged, .. } => judged,
            Verdict::Refused(_) => 0,
        }
    }
}

/// Judges a list against a network in which no wire gives a cost over `top`.
pub fn judge(network: &[u8], list: &[u8], top: u16) -> Verdict {
    let mut table = Table::empty();
    match Proposal::read(network, list, &mut table) {
        Ok(proposal) => search(&proposal, &Wires::read(&proposal, &table, top)),
        Err(refusal) => Verdict::Refused(refusal),
    }
}

/// The bytes of the route that a node holds, as they stand in the list (an own node) or in the
/// network (an input). Empty where judging would be refused or no node has the id.
pub fn neighbour<'a>(network: &'a [u8], list: &'a [u8], id: u16) -> &'a [u8] {
    let mut table = Table::empty();
    let proposal = Proposal::read(network, list, &mut table);
    match (proposal, table.row(id)) {
        (Ok(proposal), Some(row)) => held_bytes(&proposal, row, proposal.network.node(row)),
        _ => &[],
    }
}

/// What a node holds: the listed route of an own node, the assumed one of an input.
fn held_bytes<'a>(proposal: &Proposal<'a>, row: usize, node: Node<'a>) -> &'a [u8] {
    proposal.route_bytes(row).unwrap_or(node.route_bytes)
}

/// What the wires of a proposal carry, read once for all that follow them.
pub(crate) struct Wires<'a> {
    table: &'a Table,
    /// What each node holds, by row.
    pub(crate) held: [Option<Route>; MOST],
    policies: [Policy; MOST_POLICIES],
    top: u16,
}

impl<'a> Wires<'a> {
    /// Worked out apart from the search, which needs all registers.
    #[inline(never)]
    pub(crate) fn read(proposal: &Proposal, table: &'a Table, top: u16) -> Wires<'a> {
        let mut wires = Wires {
            table,
            held: [None; MOST],
            policies: [Policy::default(); MOST_POLICIES],
            top,
        };
        for (row, node) in proposal.network.nodes().enumerate() {
            wires.held[row] = route::read(held_bytes(proposal, row, node));
        }
        for (slot, policy) in wires.policies.iter_mut().zip(proposal.network.policies()) {
            *slot = policy;
        }
        wires
    }

    /// The row of a wire's sender.
    #[inline]
    pub(crate) fn sender(&self, edge: Edge) -> usize {
        let row = self.table.row(edge.from);
        row.expect("both ends of an edge exist")
    }

    /// What a wire gives the node that it leads to.
    #[inline]
    pub(crate) fn given(&self, edge: Edge) -> Option<Route> {
        let policy = &self.policies[usize::from(edge.policy)];
        route::carry(policy, self.held[self.sender(edge)], self.top)
    }
}

/// Takes the own nodes by rising id and stops at the first fault. Edges rise by their to end,
/// which is an own node, so each node's incoming edges are the next ones.
pub(crate) fn search(proposal: &Proposal, wires: &Wires) -> Verdict {
    let network = &proposal.network;
    let mut edges = network.edges();
    let mut next = edges.next();
    let mut judged = 0;
    for (row, node) in network.nodes().enumerate() {
        if !node.is_own() {
            continue;
        }
        judged += 1;
        let id = node.id();
        let mut due = node.route();
        while let Some(edge) = next.filter(|edge| edge.to == id) {
            next = edges.next();
            due = route::better(due, wires.given(edge));
        }
        if let Some(fault) = fault_of(wires.held[row], due, node) {
            return Verdict::Found {
                node: id,
                judged,
                fault,
            };
        }
    }
    Verdict::Pass { judged }
}

/// The first fault of one own node. A promise of no route is held to like any other.
fn fault_of(listed: Option<Route>, due: Option<Route>, node: Node) -> Option<Fault> {
    if listed != due {
        return Some(Fault::NotDue(due));
    }
    if let Promise::Holds(promised) = node.promise() {
        if listed != promised {
            return Some(Fault::NotPromised(promised));
        }
    }
    if !route::meets(node.demand(), listed) {
        return Some(Fault::NotMet(listed));
    }
    None
}
