//! The refusals 1 to 17: the form of records, and entries that are missing.

use std::collections::BTreeMap;

/// Number and place.
pub type Refused = (u32, usize);

pub fn word(bytes: &[u8], at: usize) -> u16 {
    u16::from(bytes[at]) * 256 + u16::from(bytes[at + 1])
}

pub fn long(bytes: &[u8]) -> u64 {
    let digits = bytes[..4].iter();
    digits.fold(0, |sum, byte| sum * 256 + u64::from(*byte))
}

/// What a version decides: the bytes of a route, those at a node's end, and the most nodes of a
/// network or entries of a sheet or list.
#[derive(Clone, Copy)]
pub struct Form {
    pub version: u8,
    pub route: usize,
    tail: usize,
    pub most: usize,
}

pub const FORMS: [Form; 1] = [Form {
    version: 1,
    route: 9,
    tail: 0,
    most: 512,
}];

impl Form {
    pub fn node(self) -> usize {
        9 + 2 * self.route + self.tail
    }

    fn network(self, policies: usize, nodes: usize, edges: usize) -> usize {
        10 + 13 * policies + self.node() * nodes + 5 * edges
    }

    /// The largest network.
    pub fn largest(self) -> usize {
        self.network(64, self.most, 4_096)
    }

    /// The largest sheet or list; `lead` is what an entry has before its route.
    pub fn largest_entries(self, lead: usize) -> usize {
        7 + (lead + self.route) * self.most
    }

    pub fn initial(self, node: &[u8]) -> &[u8] {
        &node[3..3 + self.route]
    }

    pub fn flag(self, node: &[u8]) -> u8 {
        node[3 + self.route]
    }

    pub fn promised(self, node: &[u8]) -> &[u8] {
        &node[4 + self.route..4 + 2 * self.route]
    }

    /// The demand, and behind it the ceiling and the tags.
    pub fn asks(self, node: &[u8]) -> &[u8] {
        &node[4 + 2 * self.route..9 + 2 * self.route]
    }
}

/// A record's policies, nodes and edges; whoever makes one knows that the frame is right.
pub struct Rows<'a> {
    pub form: Form,
    pub policies: Vec<&'a [u8]>,
    pub nodes: Vec<&'a [u8]>,
    pub edges: Vec<&'a [u8]>,
}

impl<'a> Rows<'a> {
    fn of(b: &'a [u8], form: Form) -> Rows<'a> {
        let (policies, rest) = b[10..].split_at(13 * usize::from(b[9]));
        let (nodes, edges) = rest.split_at(form.node() * usize::from(word(b, 5)));
        Rows {
            form,
            policies: policies.chunks(13).collect(),
            nodes: nodes.chunks(form.node()).collect(),
            edges: edges.chunks(5).collect(),
        }
    }

    /// The node with an id that some node has.
    pub fn node(&self, id: u16) -> &'a [u8] {
        self.find(id).expect("a node")
    }

    /// The node with an id, where there is one.
    pub fn find(&self, id: u16) -> Option<&'a [u8]> {
        let mut nodes = self.nodes.iter().copied();
        nodes.find(|node| word(node, 0) == id)
    }

    pub fn is_own(&self, id: u16) -> bool {
        let own = |node: &&[u8]| word(node, 0) == id && node[2] == 0;
        self.nodes.iter().any(own)
    }
}

/// The form, or the frame's refusals with `add` added to their numbers. `size` tells for a form
/// whether a count is over its bound, and the total.
fn frame(
    b: &[u8],
    add: u32,
    head: usize,
    size: impl Fn(Form) -> (bool, usize),
) -> Result<Form, Refused> {
    let version = |form: &Form| b.get(4) == Some(&form.version);
    let form = FORMS.into_iter().find(version);
    let (over, total) = match form {
        Some(form) if b.len() >= head => size(form),
        _ => (false, 0),
    };
    let all = [
        (b.len() < head, 1, b.len()),
        (form.is_none(), 2, 4),
        (over, 3, 5),
        (b.len() >= 4 && long(b) + 4 != total as u64, 4, 0),
        (b.len() < total, 1, b.len()),
        (b.len() > total, 5, total),
    ];
    match (all.iter().find(|(applies, ..)| *applies), form) {
        (Some((_, number, place)), _) => Err((number + add, *place)),
        (None, form) => Ok(form.expect("else number 2 applies")),
    }
}

fn network_frame(b: &[u8]) -> Result<Form, Refused> {
    frame(b, 0, 10, |form| {
        let counts = [u16::from(b[9]), word(b, 5), word(b, 7)];
        let [policies, nodes, edges] = counts.map(usize::from);
        let over = policies > 64 || nodes > form.most || edges > 4_096;
        (over, form.network(policies, nodes, edges))
    })
}

fn route_ill(route: &[u8]) -> bool {
    route[0] > 1 || route[0] == 0 && route[1..].iter().any(|byte| *byte != 0)
}

fn policy_ill(policy: &[u8]) -> bool {
    policy[8] > 1 || policy[8] == 0 && word(policy, 9) != 0 || word(policy, 11) == 0
}

fn node_ill(node: &[u8], form: Form) -> bool {
    let (kind, flag, promised) = (node[2], form.flag(node), form.promised(node));
    let (demand, asks) = (form.asks(node)[0], &form.asks(node)[1..]);
    kind > 1
        || flag > 1
        || demand > 2
        || route_ill(form.initial(node))
        || route_ill(promised)
        || flag == 0 && promised[0] != 0
        || demand != 1 && asks.iter().any(|byte| *byte != 0)
        || kind == 1 && (flag != 0 || demand != 0)
}

fn edge_ill(edge: &[u8], rows: &Rows) -> bool {
    let [to, from] = [0, 2].map(|at| word(edge, at));
    let exists = rows.nodes.iter().any(|node| word(node, 0) == from);
    !rows.is_own(to) || !exists || to == from || usize::from(edge[4]) >= rows.policies.len()
}

/// The first row that is ill, or whose first `key` bytes are not over those of the row before.
fn first_ill(rows: &[&[u8]], key: usize, ill: impl Fn(&[u8]) -> bool) -> Option<usize> {
    let falls = |row: usize| row > 0 && rows[row][..key] <= rows[row - 1][..key];
    (0..rows.len()).find(|&row| falls(row) || ill(rows[row]))
}

fn rows_refusal(rows: &Rows) -> Option<Refused> {
    let (form, policies) = (rows.form, rows.policies.len());
    let node_place = |row| form.network(policies, row, 0);
    if let Some(row) = rows.policies.iter().position(|policy| policy_ill(policy)) {
        return Some((6, form.network(row, 0, 0)));
    }
    if let Some(row) = first_ill(&rows.nodes, 2, |node| node_ill(node, form)) {
        return Some((7, node_place(row)));
    }
    if rows.nodes.iter().all(|node| node[2] == 1) {
        return Some((8, node_place(0)));
    }
    if let Some(row) = first_ill(&rows.edges, 4, |edge| edge_ill(edge, rows)) {
        return Some((9, form.network(policies, rows.nodes.len(), row)));
    }
    let sends = |id: u16| rows.edges.iter().any(|edge| word(edge, 2) == id);
    let idle = |node: &&[u8]| node[2] == 1 && !sends(word(node, 0));
    let row = rows.nodes.iter().position(idle)?;
    Some((10, node_place(row)))
}

/// The rows of a sound network, or the first refusal up to 10.
pub fn network(b: &[u8]) -> Result<Rows<'_>, Refused> {
    let rows = Rows::of(b, network_frame(b)?);
    match rows_refusal(&rows) {
        Some(refused) => Err(refused),
        None => Ok(rows),
    }
}

/// The entries of a sheet or list by id; `lead` is 3 or 2 bytes before the route.
fn entries(b: &[u8], lead: usize) -> Result<BTreeMap<u16, &[u8]>, Refused> {
    let form = frame(b, 10, 7, |form| {
        let count = usize::from(word(b, 5));
        (count > form.most, 7 + (lead + form.route) * count)
    })?;
    let size = lead + form.route;
    let rows: Vec<&[u8]> = b[7..].chunks(size).collect();
    let ill = |entry: &[u8]| lead == 3 && entry[2] > 63 || route_ill(&entry[lead..]);
    match first_ill(&rows, 2, ill) {
        Some(row) => Err((16, 7 + size * row)),
        None => Ok(rows.into_iter().map(|row| (word(row, 0), row)).collect()),
    }
}

/// The rows of the network and the entries of the second record, or the first refusal up to 17.
pub fn both<'a>(
    first: &'a [u8],
    second: &'a [u8],
    lead: usize,
) -> Result<(Rows<'a>, BTreeMap<u16, &'a [u8]>), Refused> {
    let rows = network(first)?;
    let entries = entries(second, lead)?;
    let missing = |node: &&&[u8]| node[2] == 0 && !entries.contains_key(&word(node, 0));
    match rows.nodes.iter().find(missing) {
        Some(node) => Err((17, word(node, 0).into())),
        None => Ok((rows, entries)),
    }
}
