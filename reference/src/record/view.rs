//! Views of records that have passed the check: they lend parts of the record and decode a field
//! when it is asked for.

use crate::form::{Form, ASKS, EDGE, KIND, MOST, ROUTE};
use crate::route::{self, Demand, Policy, Promise, Route};

/// Where each id stands among the nodes, and which rows are own nodes. Rows are kept plus one, so
/// that zero says "no node".
pub struct Table {
    rows: [u16; 65_536],
    own: [bool; MOST],
}

impl Table {
    #[inline]
    pub fn empty() -> Table {
        Table {
            rows: [0; 65_536],
            own: [false; MOST],
        }
    }

    pub fn put(&mut self, row: usize, node: Node) {
        self.rows[usize::from(node.id())] = row as u16 + 1;
        self.own[row] = node.is_own();
    }

    #[inline]
    pub fn row(&self, id: u16) -> Option<usize> {
        usize::from(self.rows[usize::from(id)]).checked_sub(1)
    }

    #[inline]
    pub fn is_own(&self, row: usize) -> bool {
        self.own[row]
    }

    pub fn has_own(&self) -> bool {
        self.own.contains(&true)
    }
}

/// A sound network, its parts lent.
#[derive(Clone, Copy)]
pub struct Network<'a> {
    pub form: Form,
    pub(super) policies: &'a [u8],
    pub(super) nodes: &'a [u8],
    pub(super) edges: &'a [u8],
}

/// One node, its parts lent.
#[derive(Clone, Copy)]
pub struct Node<'a> {
    pub bytes: &'a [u8],
    /// The initial route of an own node, the assumed one of an input.
    pub route_bytes: &'a [u8],
    pub promised_bytes: &'a [u8],
    /// The promise flag.
    pub flag: u8,
    /// The demand, its ceiling and its tags.
    pub asks: &'a [u8; ASKS],
}

#[derive(Clone, Copy, Debug, PartialEq, Eq)]
pub struct Edge {
    pub to: u16,
    pub from: u16,
    pub policy: u8,
}

/// A well-formed sheet or list: rising ids, each entry ending in a route.
#[derive(Clone, Copy)]
pub struct Entries<'a, const LEAD: usize> {
    pub(super) form: Form,
    pub(super) part: &'a [u8],
}

impl<'a> Network<'a> {
    pub fn policies(&self) -> impl ExactSizeIterator<Item = Policy> + 'a {
        rows(self.policies).map(Policy::read)
    }

    pub fn nodes(&self) -> impl ExactSizeIterator<Item = Node<'a>> {
        let form = self.form;
        self.node_rows().map(move |bytes| Node::of(bytes, form))
    }

    pub fn edges(&self) -> impl ExactSizeIterator<Item = Edge> + 'a {
        rows(self.edges).map(Edge::read)
    }

    /// The edges into a node, by rising sender. Edges stand by their to end, so that the first is
    /// found by halving.
    pub fn edges_into(&self, id: u16) -> impl Iterator<Item = Edge> + 'a {
        let (edges, _) = self.edges.as_chunks::<EDGE>();
        let first = edges.partition_point(|edge| number_at(edge, 0) < id);
        let onward = edges[first..].iter().map(Edge::read);
        onward.take_while(move |edge| edge.to == id)
    }

    pub fn node(&self, row: usize) -> Node<'a> {
        let size = self.form.node();
        Node::of(&self.nodes[row * size..][..size], self.form)
    }

    /// The nodes as they stand.
    pub fn node_rows(&self) -> impl ExactSizeIterator<Item = &'a [u8]> {
        self.nodes.chunks_exact(self.form.node())
    }

    /// The node that a row's bytes are.
    #[inline]
    pub fn read(&self, row: &'a [u8]) -> Node<'a> {
        Node::of(row, self.form)
    }

    pub fn policy_part(&self) -> &'a [u8] {
        self.policies
    }

    pub fn edge_part(&self) -> &'a [u8] {
        self.edges
    }
}

impl<'a> Node<'a> {
    #[inline]
    fn of(bytes: &'a [u8], form: Form) -> Node<'a> {
        Node {
            bytes,
            route_bytes: &bytes[ROUTE..form.flag()],
            promised_bytes: &bytes[form.promised()..form.demand()],
            flag: bytes[form.flag()],
            asks: part_at(bytes, form.demand()),
        }
    }

    #[inline]
    pub fn id(self) -> u16 {
        number_at(self.bytes, 0)
    }

    #[inline]
    pub fn kind(self) -> u8 {
        self.bytes[KIND]
    }

    #[inline]
    pub fn is_own(self) -> bool {
        self.kind() == 0
    }

    #[inline]
    pub fn route(self) -> Option<Route> {
        route::read(self.route_bytes)
    }

    #[inline]
    pub fn has_promise(self) -> bool {
        self.flag == 1
    }

    #[inline]
    pub fn promise(self) -> Promise {
        if self.has_promise() {
            Promise::Holds(route::read(self.promised_bytes))
        } else {
            Promise::Nothing
        }
    }

    #[inline]
    pub fn demand(self) -> Demand {
        let [demand, c1, c0, t1, t0] = *self.asks;
        match demand {
            0 => Demand::Nothing,
            1 => Demand::Route {
                ceiling: u16::from_be_bytes([c1, c0]),
                tags: u16::from_be_bytes([t1, t0]),
            },
            _ => Demand::NoRoute,
        }
    }
}

impl Edge {
    fn read(bytes: &[u8; EDGE]) -> Edge {
        Edge {
            to: number_at(bytes, 0),
            from: number_at(bytes, 2),
            policy: bytes[4],
        }
    }
}

impl<'a, const LEAD: usize> Entries<'a, LEAD> {
    pub fn rows(&self) -> impl ExactSizeIterator<Item = &'a [u8]> {
        self.part.chunks_exact(self.form.entry(LEAD))
    }
}

/// The rows of a part, each `SIZE` bytes.
pub fn rows<const SIZE: usize>(part: &[u8]) -> impl ExactSizeIterator<Item = &[u8; SIZE]> {
    part.chunks_exact(SIZE).map(|row| part_at(row, 0))
}

/// The `SIZE` bytes from an offset on.
pub fn part_at<const SIZE: usize>(bytes: &[u8], offset: usize) -> &[u8; SIZE] {
    bytes[offset..offset + SIZE]
        .try_into()
        .expect("a slice of SIZE bytes")
}

/// The 16-bit number at an offset.
pub fn number_at(bytes: &[u8], offset: usize) -> u16 {
    u16::from_be_bytes(*part_at(bytes, offset))
}
