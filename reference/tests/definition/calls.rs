//! Judging, counting, tracing, cutting and joining.

use super::forms::{both, network, word, Form, Refused, Rows};
use std::cmp::Reverse;
use std::collections::{BTreeMap, BTreeSet};

/// Preference, cost, origin, tags.
type Fields = Option<[u16; 4]>;

fn fields(route: &[u8]) -> Fields {
    let last = &route[route.len() - 8..];
    (route[0] == 1).then(|| [0, 2, 4, 6].map(|at| word(last, at)))
}

fn carried(policy: &[u8], held: Fields) -> Fields {
    let [preference, cost, origin, tags] = held?;
    let [need, bar, clear, set] = [0, 2, 4, 6].map(|at| word(policy, at));
    let sum = u32::from(cost) + u32::from(word(policy, 11));
    let stops = need & !tags != 0 || bar & tags != 0 || sum > 65_535;
    let preference = match policy[8] {
        1 => word(policy, 9),
        _ => preference,
    };
    (!stops).then_some([preference, sum as u16, origin, (tags & !clear) | set])
}

/// What a node holds: as listed, or as assumed.
fn held(rows: &Rows, list: &BTreeMap<u16, &[u8]>, id: u16) -> Fields {
    let node = rows.node(id);
    match node[2] {
        0 => fields(&list[&id][2..]),
        _ => fields(rows.form.initial(node)),
    }
}

/// The best of the initial route and all that the incoming edges carry.
fn due(rows: &Rows, list: &BTreeMap<u16, &[u8]>, node: &[u8]) -> Fields {
    let incoming = rows.edges.iter().filter(|edge| edge[..2] == node[..2]);
    let arrives = incoming.map(|edge| {
        let policy = rows.policies[usize::from(edge[4])];
        carried(policy, held(rows, list, word(edge, 2)))
    });
    let all = arrives.chain([fields(rows.form.initial(node))]).flatten();
    all.max_by_key(|[p, c, o, t]| (*p, Reverse(*c), Reverse(*o), Reverse(*t)))
}

fn met(asks: &[u8], held: Fields) -> bool {
    let [ceiling, tags] = [1, 3].map(|at| word(asks, at));
    match (asks[0], held) {
        (0, _) | (2, None) => true,
        (1, Some(route)) => route[1] <= ceiling && tags & !route[3] == 0,
        _ => false,
    }
}

fn words(route: Fields) -> String {
    let words = route.map(|route| route.map(|word| word.to_string()).join(" "));
    words.unwrap_or("none".into())
}

/// The judge's line.
pub fn judge(network: &[u8], list: &[u8]) -> Result<String, Refused> {
    let (rows, list) = both(network, list, 2)?;
    let form = rows.form;
    let own = rows.nodes.iter().filter(|node| node[2] == 0);
    for (before, node) in own.clone().enumerate() {
        let id = word(node, 0);
        let held = held(&rows, &list, id);
        let (due, promised) = (due(&rows, &list, node), fields(form.promised(node)));
        let faults = [
            (held != due, 31, due),
            (form.flag(node) == 1 && held != promised, 32, promised),
            (!met(form.asks(node), held), 33, held),
        ];
        if let Some((_, number, route)) = faults.iter().find(|fault| fault.0) {
            let words = words(*route);
            return Ok(format!("found {number} {id} {} {words}\n", before + 1));
        }
    }
    Ok(format!("pass {}\n", own.count()))
}

/// The judge's line, and where it is a pass, what the boxes hold and what is asked of them.
pub fn census(network: &[u8], list: &[u8]) -> Result<String, Refused> {
    let line = judge(network, list)?;
    if !line.starts_with("pass") {
        return Ok(line);
    }
    let (rows, list) = both(network, list, 2)?;
    let form = rows.form;
    let (own, inputs): (Vec<&[u8]>, Vec<&[u8]>) = rows.nodes.iter().partition(|n| n[2] == 0);
    let count = |nodes: &[&[u8]], which: &dyn Fn(&[u8]) -> bool| {
        let counted = nodes.iter().filter(|node| which(node));
        counted.count()
    };
    let holds = |node: &[u8]| fields(&list[&word(node, 0)][2..]).is_some();
    let assumed = count(&inputs, &|node| fields(form.initial(node)).is_some());
    let promises = count(&own, &|node| form.flag(node) == 1);
    let promised = count(&own, &|node| {
        form.flag(node) == 1 && fields(form.promised(node)).is_some()
    });
    let asked = count(&own, &|node| form.asks(node)[0] == 1);
    let silent = own.iter().filter(|n| !holds(n) && form.asks(n)[0] != 2);
    let lines = [
        format!("holding {} of {}\n", count(&own, &holds), own.len()),
        format!("assumed {assumed} of {}\n", inputs.len()),
        format!("promised {promised} of {promises}\n"),
        format!("asked {asked}\n"),
    ];
    let silent = silent.map(|node| format!("silent {}\n", word(node, 0)));
    Ok(line + &lines.concat() + &silent.collect::<String>())
}

/// A line for each box back from this one, which has to be an own box.
pub fn trail(network: &[u8], list: &[u8], id: u16) -> Result<String, Refused> {
    let verdict = judge(network, list)?;
    let (rows, list) = both(network, list, 2)?;
    if !rows.is_own(id) {
        return Err((18, id.into()));
    }
    if !verdict.starts_with("pass") {
        return Ok(verdict);
    }
    let mut text = String::new();
    let mut next = Some(id);
    while let Some(id) = next {
        text += &format!("{id} {}\n", words(held(&rows, &list, id)));
        next = sender(&rows, &list, id);
    }
    Ok(text)
}

/// Of all boxes that have a wire to this one over which the due route comes, the lowest; none where
/// the due route is the box's own initial one, and none for an input.
fn sender(rows: &Rows, list: &BTreeMap<u16, &[u8]>, id: u16) -> Option<u16> {
    let node = rows.node(id);
    let due = due(rows, list, node);
    if node[2] == 1 || fields(rows.form.initial(node)) == due {
        return None;
    }
    let supplies = |edge: &&&[u8]| {
        let policy = rows.policies[usize::from(edge[4])];
        word(edge, 0) == id && carried(policy, held(rows, list, word(edge, 2))) == due
    };
    let senders = rows.edges.iter().filter(supplies);
    senders.map(|edge| word(edge, 2)).min()
}

/// A network, the sheet's entries and the fragment asked.
struct Cut<'a> {
    rows: Rows<'a>,
    sheet: BTreeMap<u16, &'a [u8]>,
    asked: u8,
}

impl Cut<'_> {
    /// The fragment number of an own node.
    fn number(&self, id: u16) -> Option<u8> {
        self.rows.is_own(id).then(|| self.sheet[&id][2])
    }

    fn note(&self, id: u16) -> &[u8] {
        &self.sheet[&id][3..]
    }

    fn inside(&self, id: u16) -> bool {
        self.number(id) == Some(self.asked)
    }

    /// A cut edge leaves the node.
    fn leaves(&self, id: u16) -> bool {
        let other = |edge: &&[u8]| self.number(word(edge, 0)) != self.number(id);
        let mut edges = self.rows.edges.iter();
        self.rows.is_own(id) && edges.any(|edge| word(edge, 2) == id && other(edge))
    }

    /// An edge leads from the node into the fragment.
    fn feeds(&self, id: u16) -> bool {
        let mut edges = self.rows.edges.iter();
        edges.any(|edge| word(edge, 2) == id && self.inside(word(edge, 0)))
    }

    fn node(&self, node: &[u8]) -> Vec<u8> {
        let (id, form) = (word(node, 0), self.rows.form);
        let (flag, demand) = (3 + form.route, 4 + 2 * form.route);
        match (self.inside(id), self.feeds(id), self.rows.is_own(id)) {
            (true, ..) if node[flag] == 0 && self.leaves(id) => {
                [&node[..flag], &[1], self.note(id), &node[demand..]].concat()
            }
            (true, ..) | (_, true, false) => node.to_vec(),
            (_, true, true) => {
                let zeros = vec![0; node.len() - flag];
                [&node[..2], &[1], self.note(id), &zeros].concat()
            }
            _ => vec![],
        }
    }
}

/// The fragment.
pub fn cut(network: &[u8], asked: u8, sheet: &[u8]) -> Result<Vec<u8>, Refused> {
    let (rows, sheet) = both(network, sheet, 3)?;
    let form = rows.form;
    let cut = Cut { rows, sheet, asked };
    let nodes = &cut.rows.nodes;
    if !nodes.iter().any(|node| cut.inside(word(node, 0))) {
        return Err((18, asked.into()));
    }
    let breaks = |node: &&&[u8]| {
        let id = word(node, 0);
        form.flag(node) == 1 && cut.leaves(id) && form.promised(node) != cut.note(id)
    };
    if let Some(node) = nodes.iter().find(breaks) {
        return Err((19, word(node, 0).into()));
    }
    let nodes: Vec<u8> = nodes.iter().flat_map(|node| cut.node(node)).collect();
    let kept = |edge: &&&[u8]| cut.inside(word(edge, 0));
    let edges: Vec<&[u8]> = cut.rows.edges.iter().filter(kept).copied().collect();
    Ok(record(form, &cut.rows.policies, &nodes, &edges))
}

/// The record of these parts.
fn record(form: Form, policies: &[&[u8]], nodes: &[u8], edges: &[&[u8]]) -> Vec<u8> {
    let mut body = vec![form.version];
    body.extend(((nodes.len() / form.node()) as u16).to_be_bytes());
    body.extend((edges.len() as u16).to_be_bytes());
    body.push(policies.len() as u8);
    body.extend([&policies.concat()[..], nodes, &edges.concat()].concat());
    [&(body.len() as u32).to_be_bytes()[..], &body].concat()
}

/// Whether what the one network assumes of a box is what the other says of it: its owner promises just
/// this, or it is assumed there, too. A network that does not have the box says nothing.
fn agree(here: &Rows, there: &Rows, id: u16) -> bool {
    let (Some(node), Some(other)) = (here.find(id), there.find(id)) else {
        return true;
    };
    let (form, assumed) = (here.form, here.form.initial(node));
    match (node[2], other[2]) {
        (0, _) => true,
        (_, 0) => form.flag(other) == 1 && form.promised(other) == assumed,
        _ => form.initial(other) == assumed,
    }
}

/// The two networks as one, id by id and edge by edge.
pub fn join(first: &[u8], second: &[u8]) -> Result<Vec<u8>, Refused> {
    let both = [network(first)?, network(second)?];
    let [one, other] = &both;
    let nodes = || both.iter().flat_map(|rows| &rows.nodes);
    let ids: BTreeSet<u16> = nodes().map(|node| word(node, 0)).collect();
    let edges: BTreeSet<&[u8]> = both.iter().flat_map(|rows| rows.edges.clone()).collect();
    let twice = |id: &&u16| both.iter().all(|rows| rows.is_own(**id));
    if let Some(id) = ids.iter().find(twice) {
        return Err((21, (*id).into()));
    }
    let apart = |id: &&u16| !agree(one, other, **id) || !agree(other, one, **id);
    if let Some(id) = ids.iter().find(apart) {
        return Err((22, (*id).into()));
    }
    if one.policies != other.policies {
        return Err((23, 0));
    }
    for (count, most) in [(ids.len(), one.form.most), (edges.len(), 4_096)] {
        if count > most {
            return Err((24, count));
        }
    }
    // An own box before an input: 0 is the lower kind.
    let stays = |id: u16| nodes().filter(move |node| word(node, 0) == id);
    let joint = ids.iter().map(|id| stays(*id).min_by_key(|node| node[2]));
    let joint: Vec<u8> = joint
        .flat_map(|node| node.expect("a node").to_vec())
        .collect();
    let edges: Vec<&[u8]> = edges.into_iter().collect();
    Ok(record(one.form, &one.policies, &joint, &edges))
}
