//! Inputs of various sizes: a scene, and a list or sheet for it that is right or not quite.

use crate::form::{Form, EDGE, MOST_EDGES, MOST_POLICIES};
use crate::input::Input;
use crate::plan::{Listed, Noted};
use crate::random::Random;
use crate::route::{Route, TOP};
use crate::scene::{self, other_route, Dress, Ids, Scene, Style};
use crate::shapes::{self, Shape};

const STYLES: [Style; 4] = [Style::Plain, Style::Steady, Style::Preferring, Style::Wild];

/// A scene of up to ten boxes.
pub fn small(form: Form, random: &mut Random) -> Scene {
    let boxes = *random.pick(&[1, 2, 3, 3, 4, 4, 5, 5, 6, 7, 8, 10]);
    let shape = some_shape(boxes, random);
    let dress = Dress {
        form,
        top: TOP,
        ids: some_ids(shape.boxes, random),
        style: *random.pick(&STYLES),
        policies: random.within(1, 4),
        starts: random.within(1, 2),
        inputs: *random.pick(&[0, 0, 1, 2]),
        wires: 0,
    };
    with_own_box(&shape, &dress, random)
}

/// A scene of some dozens of boxes.
pub fn middling(form: Form, random: &mut Random) -> Scene {
    let boxes = random.within(20, 120);
    let shape = if random.one_in(4) {
        shapes::fat_tree(4)
    } else {
        some_shape(boxes, random)
    };
    let dress = Dress {
        form,
        top: TOP,
        ids: some_ids(shape.boxes, random),
        style: *random.pick(&STYLES),
        policies: random.within(1, 12),
        starts: random.within(1, 6),
        inputs: random.below(8),
        wires: 0,
    };
    with_own_box(&shape, &dress, random)
}

/// A scene with an own box: where all boxes would be inputs, none is.
pub(super) fn with_own_box(shape: &Shape, dress: &Dress, random: &mut Random) -> Scene {
    let scene = scene::dress(shape, dress, random);
    if scene.plan.nodes.iter().any(|node| node.own) {
        return scene;
    }
    let without = Dress {
        inputs: 0,
        ..*dress
    };
    scene::dress(shape, &without, random)
}

fn some_shape(boxes: usize, random: &mut Random) -> Shape {
    match random.below(9) {
        0 => shapes::chain(boxes),
        1 => shapes::ring(boxes),
        2 => shapes::star(boxes),
        3 => shapes::tree(boxes),
        4 if boxes <= 6 => shapes::complete(boxes),
        5 => shapes::grid(2, boxes.div_ceil(2)),
        6 if random.one_in(4) => Shape::bare(boxes),
        7 if boxes > 3 => shapes::ring_with_chords(boxes, 3 * boxes, random),
        _ => shapes::scattered(boxes, random.within(1, 3 * boxes), random),
    }
}

fn some_ids(boxes: usize, random: &mut Random) -> Ids {
    *random.pick(&[
        Ids::From(1),
        Ids::From(0),
        highest_ids(boxes),
        Ids::Sparse,
        Ids::Sparse,
    ])
}

fn highest_ids(boxes: usize) -> Ids {
    Ids::From((65_536 - boxes) as u16)
}

/// A judge's input: the list passes, or something is amiss in it or in what is asked.
pub fn judge(mut scene: Scene, random: &mut Random) -> Input {
    if random.one_in(2) {
        scene.ask(3, random);
    }
    let mut list = scene.list();
    match random.below(12) {
        0..=3 => {}
        4 | 5 => scene.spoil_promise(random),
        6 | 7 => scene.spoil_demand(random),
        8 => list.iter_mut().for_each(|entry| entry.1 = None),
        9 => {
            scene.spoil_promise(random);
            scene.spoil_demand(random);
        }
        _ => {
            let row = random.below(list.len());
            list[row].1 = other_route(list[row].1, random);
        }
    }
    if random.one_in(3) {
        add_listed_strangers(&scene, &mut list, random);
    }
    Input::judge(&scene.plan, &list)
}

/// A cutter's input: the sheet cuts, mostly, and the fragment asked is there, mostly.
pub fn cut(mut scene: Scene, random: &mut Random) -> Input {
    if random.one_in(2) {
        scene.ask(3, random);
    }
    let numbers = some_numbers(scene.plan.nodes.len(), random);
    let mut sheet = scene.sheet(&numbers);
    if random.one_in(5) {
        let row = random.below(sheet.len());
        sheet[row].2 = other_route(sheet[row].2, random);
    }
    let asked = if random.one_in(20) {
        random.below(64) as u8
    } else {
        random.pick(&sheet).1
    };
    if random.one_in(3) {
        let stranger = |id, random: &mut Random| (id, random.below(64) as u8, some_route(random));
        add_strangers(&scene, &mut sheet, stranger, random);
    }
    Input::cut(&scene.plan, asked, &sheet)
}

fn some_route(random: &mut Random) -> Option<Route> {
    (!random.one_in(3)).then(|| scene::route(Style::Wild, 0, random))
}

/// Fragment numbers by row.
fn some_numbers(rows: usize, random: &mut Random) -> Vec<u8> {
    let few: Vec<u8> = (0..random.within(2, 4))
        .map(|_| {
            let any = random.below(64) as u8;
            *random.pick(&[0, 1, 62, 63, any])
        })
        .collect();
    match random.below(8) {
        0 => vec![0; rows],
        1 | 2 => (0..rows).map(|row| u8::from(2 * row >= rows)).collect(),
        3 => (0..rows).map(|row| (row % 64) as u8).collect(),
        _ => (0..rows).map(|_| *random.pick(&few)).collect(),
    }
}

/// An entry's id, of a list or a sheet.
trait Entry {
    fn id(&self) -> u16;
}

impl Entry for Listed {
    fn id(&self) -> u16 {
        self.0
    }
}

impl Entry for Noted {
    fn id(&self) -> u16 {
        self.0
    }
}

/// Adds entries for ids that are no own node's: inputs, or nobody.
fn add_strangers<E: Entry>(
    scene: &Scene,
    entries: &mut Vec<E>,
    make: impl Fn(u16, &mut Random) -> E,
    random: &mut Random,
) {
    for _ in 0..random.within(1, 3) {
        let near = entries[random.below(entries.len())].id();
        let far = random.number();
        let id = *random.pick(&[near.wrapping_add(1), near.wrapping_sub(1), far]);
        let place = entries.partition_point(|entry| entry.id() < id);
        let taken = entries.get(place).is_some_and(|entry| entry.id() == id);
        if !taken && entries.len() < scene.plan.form.most {
            entries.insert(place, make(id, random));
        }
    }
}

fn add_listed_strangers(scene: &Scene, list: &mut Vec<Listed>, random: &mut Random) {
    add_strangers(scene, list, |id, random| (id, some_route(random)), random);
}

/// A scene of the most boxes, wires and policies.
pub(super) fn largest_scene(
    form: Form,
    shape: &Shape,
    ids: Ids,
    inputs: usize,
    random: &mut Random,
) -> Scene {
    let dress = Dress {
        form,
        top: TOP,
        ids,
        style: Style::Steady,
        policies: MOST_POLICIES,
        starts: 20,
        inputs,
        wires: MOST_EDGES,
    };
    let mut scene = scene::dress(shape, &dress, random);
    scene.ask(3, random);
    scene
}

/// A fat-tree of 16 pods with all wires, and boxes without any to make the most.
pub(super) fn padded_fat_tree(form: Form) -> Shape {
    Shape {
        boxes: form.most,
        ..shapes::fat_tree(16)
    }
}

/// Every shape that the largest records come in.
fn largest_scenes(form: Form, random: &mut Random) -> Vec<Scene> {
    let (most, r) = (form.most, random);
    let scattered = shapes::scattered(most, MOST_EDGES, r);
    let ring = shapes::ring_with_chords(most, MOST_EDGES, r);
    let (star, grid) = (shapes::star(most), shapes::grid(16, most / 16));
    [
        (&scattered, Ids::Sparse, 0),
        (&ring, Ids::From(1), 0),
        (&padded_fat_tree(form), Ids::From(0), 0),
        (&scattered, Ids::Sparse, 60),
        (&star, highest_ids(most), 0),
        (&grid, Ids::Sparse, 20),
    ]
    .map(|(shape, ids, inputs)| largest_scene(form, shape, ids, inputs, r))
    .into()
}

/// The largest list: one entry for each own node, and strangers up to the most.
pub(super) fn full_list(scene: &Scene, random: &mut Random) -> Vec<Listed> {
    let mut list = scene.list();
    while list.len() < scene.plan.form.most {
        add_listed_strangers(scene, &mut list, random);
    }
    list
}

/// One input of exactly the judge's bound, which passes.
pub fn largest_judge(form: Form, random: &mut Random) -> Input {
    let shape = shapes::scattered(form.most, MOST_EDGES, random);
    let scene = largest_scene(form, &shape, Ids::Sparse, 0, random);
    let list = full_list(&scene, random);
    Input::judge(&scene.plan, &list)
}

/// The largest inputs: passes, findings and refusals near the end, and cuts.
pub fn largest(form: Form, random: &mut Random) -> Vec<Input> {
    let mut inputs = Vec::new();
    for (row, scene) in largest_scenes(form, random).iter().enumerate() {
        let list = full_list(scene, random);
        let judge = Input::judge(&scene.plan, &list);
        inputs.push(judge.clone());
        inputs.push(late_finding(scene, &list, row, random));
        inputs.push(late_refusal(judge, row));
        let parts = [64, 4, 16, 1, 8, 2][row];
        let numbers: Vec<u8> = (0..form.most).map(|row| (row % parts) as u8).collect();
        inputs.push(Input::cut(&scene.plan, 0, &scene.sheet(&numbers)));
    }
    inputs
}

/// A fault somewhere: in the list, a promise or a demand, by turns.
fn late_finding(scene: &Scene, list: &[Listed], turn: usize, random: &mut Random) -> Input {
    let (mut scene, mut list) = (scene.clone(), list.to_vec());
    match turn % 3 {
        0 => {
            let last = scene.plan.own_ids().last().expect("an own node");
            let entry = list.iter_mut().find(|entry| entry.0 == last);
            let entry = entry.expect("its entry");
            entry.1 = other_route(entry.1, random);
        }
        1 => scene.spoil_promise(random),
        _ => scene.spoil_demand(random),
    }
    Input::judge(&scene.plan, &list)
}

/// A damage at the end of the network, or of the list.
fn late_refusal(mut input: Input, turn: usize) -> Input {
    let (network, list) = (&mut input.network, &mut input.second);
    let edge = network.len() - EDGE;
    let route = list.len() - input.form.route;
    match turn % 3 {
        0 => network[edge + 4] = MOST_POLICIES as u8,
        1 => list[route] = 2,
        _ => network.copy_within(edge..edge + 2, edge + 2),
    }
    input
}
