//! What a pass carried: how many boxes hold a route, and which hold none though nobody asked for
//! it. To the judge no route is a value like any other, so that a plan in which nothing arrives
//! passes where nothing more is asked.

use crate::judge::{search, Verdict, Wires};
use crate::record::{Proposal, Table};
use crate::route::{self, Demand, Promise};

/// The counts of a network under a list that passes.
#[derive(Clone, Debug, Default, PartialEq, Eq)]
pub struct Census {
    /// Own boxes, and those that hold a route.
    pub boxes: usize,
    pub holding: usize,
    /// Inputs, and those that are assumed to hold a route.
    pub inputs: usize,
    pub assumed: usize,
    /// Promises, and those of a route.
    pub promises: usize,
    pub promised: usize,
    /// Own boxes that have to hold a route.
    pub asked: usize,
    /// Own boxes that hold none though nobody asked for it, by rising id.
    pub silent: Vec<u16>,
}

/// The verdict on a list, and where that is a pass, what it carried.
pub fn census(network: &[u8], list: &[u8], top: u16) -> (Verdict, Option<Census>) {
    let mut table = Table::empty();
    match Proposal::read(network, list, &mut table) {
        Ok(proposal) => {
            let verdict = search(&proposal, &Wires::read(&proposal, &table, top));
            let passes = matches!(verdict, Verdict::Pass { .. });
            (verdict, passes.then(|| count(&proposal)))
        }
        Err(refusal) => (Verdict::Refused(refusal), None),
    }
}

/// Counts node by node. A demand to hold none asks for silence, and nothing else does: a promise
/// of no route may come from a note.
fn count(proposal: &Proposal) -> Census {
    let mut census = Census::default();
    for (row, node) in proposal.network.nodes().enumerate() {
        let Some(listed) = proposal.route_bytes(row) else {
            census.inputs += 1;
            census.assumed += usize::from(node.route().is_some());
            continue;
        };
        census.boxes += 1;
        if let Promise::Holds(promised) = node.promise() {
            census.promises += 1;
            census.promised += usize::from(promised.is_some());
        }
        let demand = node.demand();
        census.asked += usize::from(matches!(demand, Demand::Route { .. }));
        if !route::is_none(listed) {
            census.holding += 1;
        } else if demand != Demand::NoRoute {
            census.silent.push(node.id());
        }
    }
    census
}
