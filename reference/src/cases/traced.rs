//! Scenes in which routes come by many ways, and inputs of the trail.

use super::inputs;
use crate::form::Form;
use crate::input::Input;
use crate::known;
use crate::plan::Plan;
use crate::random::Random;
use crate::record::{read_network, Network, Table};
use crate::route::TOP;
use crate::scene::{Dress, Ids, Scene, Style};
use crate::shapes;

/// An input that asks for the trail of some own box; the list passes, mostly.
pub fn trail(mut scene: Scene, random: &mut Random) -> Input {
    if random.one_in(4) {
        scene.start_as_held(3, random);
    }
    let id = some_own_id(&scene.plan, random);
    if random.one_in(6) {
        return inputs::judge(scene, random).naming(id);
    }
    scene.ask(4, random);
    Input::trail(&scene.plan, id, &scene.list())
}

fn some_own_id(plan: &Plan, random: &mut Random) -> u16 {
    let ids: Vec<u16> = plan.own_ids().collect();
    *random.pick(&ids)
}

/// A scene of up to twelve boxes in which many have several suppliers: there are ways of equal
/// length, and all wires do the same.
pub fn tied(form: Form, random: &mut Random) -> Scene {
    let shape = match random.below(3) {
        0 => shapes::grid(3, random.within(2, 4)),
        1 => shapes::ring(2 * random.within(2, 5)),
        _ => shapes::complete(random.within(3, 6)),
    };
    let dress = Dress {
        form,
        top: TOP,
        ids: *random.pick(&[Ids::From(1), Ids::Sparse]),
        style: Style::Plain,
        policies: 1,
        starts: random.within(1, 2),
        inputs: random.below(3),
        wires: 0,
    };
    inputs::with_own_box(&shape, &dress, random)
}

/// The trail of some own box of a fragment, by the list of the whole. Where the cut is refused, its
/// line stands in the place of the fragment.
pub fn part(scene: Scene, random: &mut Random) -> Input {
    let whole = Input::judge(&scene.plan, &scene.list());
    let network = inputs::cut(scene, random).answer();
    let own = match read_network(&network, &mut Table::empty()) {
        Ok(fragment) => own_ids(&fragment),
        Err(_) => vec![0],
    };
    let id = *random.pick(&own);
    Input { network, ..whole }.naming(id)
}

fn own_ids(network: &Network) -> Vec<u16> {
    let own = network.nodes().filter(|node| node.is_own());
    own.map(|node| node.id()).collect()
}

/// The longest trail, in an input of the most bytes.
pub fn largest(form: Form) -> Input {
    let (plan, list) = known::longest_trail(form);
    Input::trail(&plan, plan.nodes[0].id, &list)
}
