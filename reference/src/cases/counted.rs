//! Scenes in which some boxes hold nothing, and inputs of the census.

use super::inputs::{self, full_list, largest_scene, padded_fat_tree};
use crate::call::CENSUS;
use crate::form::Form;
use crate::input::Input;
use crate::plan::{Listed, Node, Plan};
use crate::random::Random;
use crate::route::{Promise, TOP};
use crate::scene::{Ids, Scene};

/// A scene of up to ten boxes, of which some hold nothing, or all.
pub fn hushed(form: Form, random: &mut Random) -> Scene {
    let mut scene = inputs::small(form, random);
    hush(&mut scene, random);
    scene
}

/// Takes some routes away, or all.
fn hush(scene: &mut Scene, random: &mut Random) {
    let rate = *random.pick(&[1, 2, 4, 4, 8]);
    scene.hush(rate, TOP, random);
}

/// An input in which some boxes hold nothing, or all; the list passes, mostly.
pub fn census(mut scene: Scene, random: &mut Random) -> Input {
    hush(&mut scene, random);
    let input = if random.one_in(4) {
        inputs::judge(scene, random)
    } else {
        scene.ask(3, random);
        Input::judge(&scene.plan, &scene.list())
    };
    Input {
        call: CENSUS,
        ..input
    }
}

/// One of the most bytes, with inputs and with boxes that nothing reaches; and one with the longest
/// answer.
pub fn largest(form: Form, random: &mut Random) -> [Input; 2] {
    let mut scene = largest_scene(form, &padded_fat_tree(form), Ids::Sparse, 12, random);
    scene.hush(2, TOP, random);
    scene.ask(3, random);
    let list = full_list(&scene, random);
    [Input::census(&scene.plan, &list), longest_answer(form)]
}

/// The most boxes, each named by an id of five digits, and each with a promise.
fn longest_answer(form: Form) -> Input {
    let ids = (0..form.most as u16).rev().map(|row| u16::MAX - row);
    let silent = |id| Node {
        promise: Promise::Holds(None),
        ..Node::own(id, None)
    };
    let plan = Plan {
        form,
        nodes: ids.map(silent).collect(),
        ..Plan::default()
    };
    let list: Vec<Listed> = plan.own_ids().map(|id| (id, None)).collect();
    Input::census(&plan, &list)
}
