//! Groups of trails.

use crate::cases::{inputs, traced, Stream};
use crate::damage;
use crate::form::Form;
use crate::input::Input;
use crate::random::Random;

/// A scene in which many boxes have several suppliers.
pub fn tied(stream: &mut Stream, form: Form, random: &mut Random) {
    let scene = traced::tied(form, random);
    stream.add_parts(&traced::trail(scene, random));
}

/// Every box and every input of a scene.
pub fn every_node(stream: &mut Stream, form: Form, random: &mut Random) {
    let scene = traced::tied(form, random);
    let list = scene.list();
    for node in &scene.plan.nodes {
        stream.add_parts(&Input::trail(&scene.plan, node.id, &list));
    }
}

/// A damaged id, with a list that passes or not, and now and then another damage, to see which is
/// named.
pub fn misnamed(stream: &mut Stream, form: Form, random: &mut Random) {
    let scene = inputs::small(form, random);
    let make = *random.pick(&[inputs::judge, traced::trail]);
    let mut input = make(scene, random).naming(0);
    let (_, damage) = random.pick(&damage::NAMING);
    damage(&mut input, random);
    if random.one_in(3) {
        let (_, damage) = random.pick(&damage::ALL);
        damage(&mut input, random);
    }
    stream.add_parts(&input);
}

/// The longest trail, in an input of exactly the most bytes, and one byte more.
pub fn largest(stream: &mut Stream, form: Form) {
    let input = traced::largest(form);
    stream.add_parts(&input);
    let over = [&input.bytes()[..], &[0]].concat();
    stream.add(input.call, &over);
}
