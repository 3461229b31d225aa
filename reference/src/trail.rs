//! Where a route started: from a box back over the wires, at each box to the lowest sender that
//! supplies what it holds, to a box that starts with it or to an input.

use crate::judge::{search, Verdict, Wires};
use crate::record::{Network, Proposal, Table};
use crate::refusal::Refusal;
use crate::route::Route;

/// A box of a trail, and what it holds.
#[derive(Clone, Copy, Debug, PartialEq, Eq)]
pub struct Step {
    pub id: u16,
    pub route: Option<Route>,
}

/// The trail of an own box under a list that passes. Of any other list there is the verdict; that
/// no own box has the id is refused before a fault is looked for.
pub fn trail(network: &[u8], list: &[u8], id: u16, top: u16) -> Result<Vec<Step>, Verdict> {
    let mut table = Table::empty();
    let proposal = Proposal::read(network, list, &mut table).map_err(Verdict::Refused)?;
    let row = table.row(id).filter(|row| table.is_own(*row));
    let Some(row) = row else {
        let (number, place) = (18, id.into());
        return Err(Verdict::Refused(Refusal { number, place }));
    };
    let wires = Wires::read(&proposal, &table, top);
    match search(&proposal, &wires) {
        Verdict::Pass { .. } => Ok(back_from(row, &proposal.network, &wires)),
        fails => Err(fails),
    }
}

/// Every wire adds to the cost, so that each sender holds a cheaper route than the box that it
/// supplies: no box comes twice, and the walk ends.
fn back_from(mut row: usize, network: &Network, wires: &Wires) -> Vec<Step> {
    let mut steps = Vec::new();
    loop {
        let (id, route) = (network.node(row).id(), wires.held[row]);
        steps.push(Step { id, route });
        match sender(row, network, wires) {
            Some(from) => row = from,
            None => return steps,
        }
    }
}

/// The row that the trail goes back to. There is none behind an input, nor behind a box whose own
/// initial route is the due one, whoever supplies the same. The list passes, so that what a box
/// holds is due.
fn sender(row: usize, network: &Network, wires: &Wires) -> Option<usize> {
    let (node, due) = (network.node(row), wires.held[row]);
    if !node.is_own() || node.route() == due {
        return None;
    }
    let mut edges = network.edges_into(node.id());
    let supplier = edges.find(|edge| wires.given(*edge) == due);
    supplier.map(|edge| wires.sender(edge))
}
