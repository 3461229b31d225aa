//! Finding a row of a network to damage.

use super::number;
use crate::form::{Form, COUNT_AT, EDGE, KIND, NETWORK_HEAD, POLICY};
use crate::input::Input;
use crate::random::Random;

/// Where the rows of a network stand.
pub struct Layout {
    form: Form,
    pub policies: usize,
    pub nodes: usize,
    pub edges: usize,
}

impl Layout {
    /// Nothing where the record is not as long as its counts say.
    pub fn of(input: &Input) -> Option<Layout> {
        let (record, form) = (&input.network, input.form);
        let layout = Layout {
            form,
            policies: usize::from(*record.get(COUNT_AT + 4)?),
            nodes: usize::from(number(record, COUNT_AT)),
            edges: usize::from(number(record, COUNT_AT + 2)),
        };
        let total = form.network(layout.policies, layout.nodes, layout.edges);
        (record.len() == total).then_some(layout)
    }

    pub fn node(&self, row: usize) -> usize {
        self.form.network(self.policies, row, 0)
    }

    pub fn edge(&self, row: usize) -> usize {
        self.node(self.nodes) + EDGE * row
    }
}

/// The offset of some policy.
pub fn some_policy(input: &Input, random: &mut Random) -> Option<usize> {
    let layout = Layout::of(input).filter(|layout| layout.policies > 0)?;
    Some(NETWORK_HEAD + POLICY * random.below(layout.policies))
}

/// The offset of some node of the wanted kind, or of any.
pub fn some_node(input: &Input, kind: Option<u8>, random: &mut Random) -> Option<usize> {
    let layout = Layout::of(input)?;
    let offsets = (0..layout.nodes).map(|row| layout.node(row));
    let wanted = |node: &usize| kind.is_none_or(|kind| input.network[node + KIND] == kind);
    let nodes: Vec<usize> = offsets.filter(wanted).collect();
    (!nodes.is_empty()).then(|| *random.pick(&nodes))
}

/// The offset of some edge from this row on.
pub fn some_edge(input: &Input, first: usize, random: &mut Random) -> Option<usize> {
    let layout = Layout::of(input).filter(|layout| layout.edges > first)?;
    Some(layout.edge(random.within(first, layout.edges - 1)))
}

/// An id that no node has.
pub fn stranger(input: &Input, random: &mut Random) -> u16 {
    let nodes = Layout::of(input).map_or(vec![], |layout| {
        let ids = (0..layout.nodes).map(|row| number(&input.network, layout.node(row)));
        ids.collect()
    });
    loop {
        let (any, low) = (random.number(), random.below(16) as u16);
        let id = *random.pick(&[0, 65_535, any, low, low]);
        if !nodes.contains(&id) {
            return id;
        }
    }
}
