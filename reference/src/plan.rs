//! Plans: the values that records are laid down from. Nothing is checked here, so that records
//! that deserve a refusal can be laid down too.

use crate::form::{Form, LIST_LEAD, SHEET_LEAD};
use crate::record::{self, Edge, Network};
use crate::route::{self, Demand, Policy, Promise, Route};

#[derive(Clone, Debug)]
pub struct Node {
    pub id: u16,
    pub own: bool,
    pub route: Option<Route>,
    pub promise: Promise,
    pub demand: Demand,
}

impl Node {
    /// An own node that promises nothing and of which nothing is asked.
    pub fn own(id: u16, initial: Option<Route>) -> Node {
        Node {
            id,
            own: true,
            route: initial,
            promise: Promise::Nothing,
            demand: Demand::Nothing,
        }
    }

    pub fn input(id: u16, assumed: Option<Route>) -> Node {
        Node {
            own: false,
            ..Node::own(id, assumed)
        }
    }
}

/// A network before it is a record of its form.
#[derive(Clone, Debug, Default)]
pub struct Plan {
    pub form: Form,
    pub policies: Vec<Policy>,
    pub nodes: Vec<Node>,
    pub edges: Vec<Edge>,
}

/// Entries of a list and of a sheet.
pub type Listed = (u16, Option<Route>);
pub type Noted = (u16, u8, Option<Route>);

impl Plan {
    /// The plan that a sound network is the record of.
    pub fn read(network: &Network) -> Plan {
        let node = |node: record::Node| Node {
            id: node.id(),
            own: node.is_own(),
            route: node.route(),
            promise: node.promise(),
            demand: node.demand(),
        };
        Plan {
            form: network.form,
            policies: network.policies().collect(),
            nodes: network.nodes().map(node).collect(),
            edges: network.edges().collect(),
        }
    }

    /// The same plan in another form.
    pub fn of(self, form: Form) -> Plan {
        Plan { form, ..self }
    }

    /// A wire; the edges are brought into order when the record is laid down.
    pub fn wire(&mut self, from: u16, to: u16, policy: u8) {
        self.edges.push(Edge { to, from, policy });
    }

    pub fn row(&self, id: u16) -> Option<usize> {
        self.nodes.iter().position(|node| node.id == id)
    }

    pub fn own_ids(&self) -> impl Iterator<Item = u16> + '_ {
        self.nodes.iter().filter(|node| node.own).map(|n| n.id)
    }

    /// The record, with nodes and edges in their order.
    pub fn record(&self) -> Vec<u8> {
        let mut nodes: Vec<&Node> = self.nodes.iter().collect();
        nodes.sort_by_key(|node| node.id);
        let mut edges = self.edges.clone();
        edges.sort_by_key(|edge| (edge.to, edge.from));
        let head = (self.form).network_head(self.policies.len(), nodes.len(), edges.len());
        let mut record = head.to_vec();
        for policy in &self.policies {
            lay_policy(&mut record, policy);
        }
        for node in nodes {
            lay_node(&mut record, self.form, node);
        }
        for edge in edges {
            lay_numbers(&mut record, &[edge.to, edge.from]);
            record.push(edge.policy);
        }
        record
    }
}

/// A route list record; the entries stand as they are given.
pub fn list_record(form: Form, entries: &[Listed]) -> Vec<u8> {
    let mut record = form.entries_head(LIST_LEAD, entries.len()).to_vec();
    for (id, listed) in entries {
        record.extend(id.to_be_bytes());
        record.extend(route::bytes(form, *listed));
    }
    record
}

/// A sheet record; the entries stand as they are given.
pub fn sheet_record(form: Form, entries: &[Noted]) -> Vec<u8> {
    let mut record = form.entries_head(SHEET_LEAD, entries.len()).to_vec();
    for (id, fragment, note) in entries {
        record.extend(id.to_be_bytes());
        record.push(*fragment);
        record.extend(route::bytes(form, *note));
    }
    record
}

fn lay_numbers(record: &mut Vec<u8>, numbers: &[u16]) {
    for number in numbers {
        record.extend(number.to_be_bytes());
    }
}

fn lay_policy(record: &mut Vec<u8>, policy: &Policy) {
    let Policy {
        need,
        bar,
        clear,
        set,
        preference,
        cost,
    } = *policy;
    lay_numbers(record, &[need, bar, clear, set]);
    record.push(u8::from(preference.is_some()));
    lay_numbers(record, &[preference.unwrap_or(0), cost]);
}

fn lay_node(record: &mut Vec<u8>, form: Form, node: &Node) {
    record.extend(node.id.to_be_bytes());
    record.push(u8::from(!node.own));
    record.extend(route::bytes(form, node.route));
    let (flag, promised) = match node.promise {
        Promise::Nothing => (0, None),
        Promise::Holds(promised) => (1, promised),
    };
    record.push(flag);
    record.extend(route::bytes(form, promised));
    let (demand, ceiling, tags) = match node.demand {
        Demand::Nothing => (0, 0, 0),
        Demand::Route { ceiling, tags } => (1, ceiling, tags),
        Demand::NoRoute => (2, 0, 0),
    };
    record.push(demand);
    lay_numbers(record, &[ceiling, tags]);
    record.extend(vec![0; form.tail]);
}
