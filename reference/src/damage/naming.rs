//! Damages to the id that names a box.

use super::layout::{some_node, stranger};
use super::number;
use crate::input::Input;
use crate::random::Random;

pub fn nobody(input: &mut Input, random: &mut Random) {
    let id = stranger(input, random);
    name(input, id);
}

/// Names an input, or where there is none nobody.
pub fn input(input: &mut Input, random: &mut Random) {
    match some_node(input, Some(1), random) {
        Some(node) => name(input, number(&input.network, node)),
        None => nobody(input, random),
    }
}

/// Leaves one byte of the id or none, and nothing behind it.
pub fn cut_off(input: &mut Input, random: &mut Random) {
    input.between.truncate(random.below(2));
    input.second.clear();
}

fn name(input: &mut Input, id: u16) {
    input.between = id.to_be_bytes().to_vec();
}
