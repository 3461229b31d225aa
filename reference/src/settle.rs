//! Looking for a list that passes: every box takes its due route, again and again, until none
//! changes. Judging does not rest on this; a plan that never settles gives a list that fails.

use crate::plan::{Listed, Plan};
use crate::route::{better, carry, Route};

/// The routes by row (inputs hold their assumed ones), and whether they came to rest. No wire
/// gives a cost over `top`.
pub fn settle(plan: &Plan, top: u16, rounds: usize) -> (Vec<Option<Route>>, bool) {
    let mut incoming = vec![Vec::new(); plan.nodes.len()];
    for edge in &plan.edges {
        if let (Some(to), Some(from)) = (plan.row(edge.to), plan.row(edge.from)) {
            incoming[to].push((from, plan.policies[usize::from(edge.policy)]));
        }
    }
    let mut held: Vec<Option<Route>> = plan.nodes.iter().map(|node| node.route).collect();
    for _ in 0..rounds {
        let mut changed = false;
        for (row, node) in plan.nodes.iter().enumerate().filter(|(_, node)| node.own) {
            let due = incoming[row]
                .iter()
                .fold(node.route, |best, (from, policy)| {
                    better(best, carry(policy, held[*from], top))
                });
            changed |= due != held[row];
            held[row] = due;
        }
        if !changed {
            return (held, true);
        }
    }
    (held, false)
}

/// The entries of a list that gives each own node the route it holds.
pub fn listed(plan: &Plan, held: &[Option<Route>]) -> Vec<Listed> {
    let rows = plan.nodes.iter().zip(held).filter(|(node, _)| node.own);
    let mut entries: Vec<Listed> = rows.map(|(node, route)| (node.id, *route)).collect();
    entries.sort_by_key(|entry| entry.0);
    entries
}
