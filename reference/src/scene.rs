//! Scenes: a shape dressed with ids, policies and routes, settled, and then given promises and
//! demands that fit what the boxes hold.

use crate::form::Form;
use crate::plan::{Listed, Node, Noted, Plan};
use crate::random::Random;
use crate::route::{Demand, Promise, Route};
use crate::settle;
use crate::shapes::Shape;
use std::collections::BTreeSet;

mod values;

pub use values::{extreme, other_route, policy, route};
use values::{met_demand, unmet_demand};

/// How ids are given out.
#[derive(Clone, Copy, Debug)]
pub enum Ids {
    From(u16),
    /// Anywhere among all 65,536, the lowest and the highest now and then.
    Sparse,
}

/// What policies and routes are like.
#[derive(Clone, Copy, Debug)]
pub enum Style {
    /// Wires add to the cost and do no more.
    Plain,
    /// Tags too, and a preference that only ever falls: always settles.
    Steady,
    /// Wires may raise the preference, so that there may be several answers or none.
    Preferring,
    /// Any value in any field, the extreme ones often.
    Wild,
}

#[derive(Clone, Copy, Debug)]
pub struct Dress {
    pub form: Form,
    /// No wire gives a cost over this.
    pub top: u16,
    pub ids: Ids,
    pub style: Style,
    pub policies: usize,
    /// How many boxes start with a route.
    pub starts: usize,
    /// How many boxes to turn into inputs, where that is possible.
    pub inputs: usize,
    /// Wires are added at random until there are at least so many.
    pub wires: usize,
}

#[derive(Clone, Debug)]
pub struct Scene {
    pub plan: Plan,
    /// By row: what each node holds once the plan has settled, if it did.
    pub held: Vec<Option<Route>>,
    pub settled: bool,
}

/// Rounds after which a plan is taken not to settle.
const ROUNDS: usize = 1_100;

pub fn dress(shape: &Shape, dress: &Dress, random: &mut Random) -> Scene {
    let ids = give_ids(dress.ids, shape.boxes, random);
    let mut wires = shape.wires.clone();
    let inputs = choose_inputs(shape.boxes, dress.inputs, &mut wires, random);
    while wires.len() < dress.wires {
        let (to, from) = (random.below(shape.boxes), random.below(shape.boxes));
        if to != from && !inputs.contains(&to) {
            wires.insert((to, from));
        }
    }
    let starts: BTreeSet<usize> = (0..dress.starts)
        .map(|_| random.below(shape.boxes))
        .collect();
    let mut plan = Plan {
        form: dress.form,
        policies: (0..dress.policies)
            .map(|_| policy(dress.style, random))
            .collect(),
        ..Plan::default()
    };
    for (row, &id) in ids.iter().enumerate() {
        let input = inputs.contains(&row);
        let start = (input || starts.contains(&row)).then(|| route(dress.style, id, random));
        plan.nodes.push(if input {
            Node::input(id, start)
        } else {
            Node::own(id, start)
        });
    }
    for (to, from) in wires {
        let policy = random.below(dress.policies) as u8;
        plan.wire(ids[from], ids[to], policy);
    }
    let (held, settled) = settle::settle(&plan, dress.top, ROUNDS);
    Scene {
        plan,
        held,
        settled,
    }
}

impl Scene {
    fn own_row(&self, random: &mut Random) -> usize {
        let own: Vec<usize> = (0..self.plan.nodes.len())
            .filter(|&row| self.plan.nodes[row].own)
            .collect();
        *random.pick(&own)
    }

    /// Takes about one in `rate` of the routes away that boxes start with or are assumed to hold,
    /// and settles anew. What was promised and asked goes too, since it need not fit any more.
    pub fn hush(&mut self, rate: usize, top: u16, random: &mut Random) {
        for node in &mut self.plan.nodes {
            if random.one_in(rate) {
                node.route = None;
            }
            node.promise = Promise::Nothing;
            node.demand = Demand::Nothing;
        }
        (self.held, self.settled) = settle::settle(&self.plan, top, ROUNDS);
    }

    /// Has about one own node in `rate` start with what it holds, which others supply to it or not.
    /// It holds the same as before, and so do all others.
    pub fn start_as_held(&mut self, rate: usize, random: &mut Random) {
        for (node, held) in self.plan.nodes.iter_mut().zip(&self.held) {
            if node.own && random.one_in(rate) {
                node.route = *held;
            }
        }
    }

    /// Gives about one own node in `rate` a promise, and as many a demand, that it meets.
    pub fn ask(&mut self, rate: usize, random: &mut Random) {
        for (node, held) in self.plan.nodes.iter_mut().zip(&self.held) {
            if node.own && random.one_in(rate) {
                node.promise = Promise::Holds(*held);
            }
            if node.own && random.one_in(rate) {
                node.demand = met_demand(*held, random);
            }
        }
    }

    /// Has one own node promise another route than it holds: 32, if all else is well.
    pub fn spoil_promise(&mut self, random: &mut Random) {
        let row = self.own_row(random);
        let promised = other_route(self.held[row], random);
        self.plan.nodes[row].promise = Promise::Holds(promised);
    }

    /// Asks of one own node what it does not meet: 33, if all else is well.
    pub fn spoil_demand(&mut self, random: &mut Random) {
        let row = self.own_row(random);
        self.plan.nodes[row].demand = unmet_demand(self.held[row], random);
    }

    /// The list of what each own node holds.
    pub fn list(&self) -> Vec<Listed> {
        settle::listed(&self.plan, &self.held)
    }

    /// The sheet with the held routes as notes. Numbers are by row; those of inputs are not read.
    pub fn sheet(&self, numbers: &[u8]) -> Vec<Noted> {
        let rows = self.plan.nodes.iter().zip(&self.held).zip(numbers);
        let own = rows.filter(|((node, _), _)| node.own);
        let mut entries: Vec<Noted> = own
            .map(|((node, held), number)| (node.id, *number, *held))
            .collect();
        entries.sort_by_key(|entry| entry.0);
        entries
    }
}

fn give_ids(ids: Ids, count: usize, random: &mut Random) -> Vec<u16> {
    match ids {
        Ids::From(first) => (0..count).map(|row| first + row as u16).collect(),
        Ids::Sparse => {
            let mut chosen = BTreeSet::new();
            if count > 1 && random.one_in(2) {
                chosen.extend([0, u16::MAX]);
            }
            while chosen.len() < count {
                chosen.insert(random.number());
            }
            chosen.into_iter().collect()
        }
    }
}

/// Turns boxes into inputs by taking their incoming wires away; one that has no wire left to an
/// own box stays an own box.
fn choose_inputs(
    boxes: usize,
    wanted: usize,
    wires: &mut BTreeSet<(usize, usize)>,
    random: &mut Random,
) -> BTreeSet<usize> {
    let mut inputs: BTreeSet<usize> = (0..wanted).map(|_| random.below(boxes)).collect();
    wires.retain(|(to, _)| !inputs.contains(to));
    inputs.retain(|input| wires.iter().any(|(_, from)| from == input));
    inputs
}
