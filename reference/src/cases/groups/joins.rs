//! Groups of joins.

use super::disturb;
use crate::call::LENT_JOIN;
use crate::cases::joined::{self, bare, Pair, OBSTACLES};
use crate::cases::Stream;
use crate::damage::{self, Damage};
use crate::form::{Form, MOST_EDGES};
use crate::input::Input;
use crate::random::Random;
use crate::route::Promise;

fn add(stream: &mut Stream, [first, second]: &Pair) {
    stream.add_parts(&Input::join(first, second));
}

/// Two fragments of one network.
pub fn fragments(stream: &mut Stream, form: Form, random: &mut Random) {
    add(stream, &joined::fragments(form, random));
}

/// Up to three obstacles, to see which is named.
pub fn hindered(stream: &mut Stream, form: Form, random: &mut Random) {
    let mut pair = joined::fragments(form, random);
    let (_, obstacle) = OBSTACLES[stream.cases.len() % OBSTACLES.len()];
    obstacle(&mut pair, random);
    for _ in 0..random.below(3) {
        let (_, obstacle) = random.pick(&OBSTACLES);
        obstacle(&mut pair, random);
    }
    add(stream, &pair);
}

/// A damage to the first network, to the second or to both; now and then an obstacle, too.
pub fn damaged(stream: &mut Stream, form: Form, random: &mut Random) {
    let mut pair = joined::fragments(form, random);
    if random.one_in(3) {
        let (_, obstacle) = random.pick(&OBSTACLES);
        obstacle(&mut pair, random);
    }
    let [first, second] = &pair;
    let mut input = Input::join(first, second);
    let all = damage::to_networks();
    let (_, damage) = all[stream.cases.len() % all.len()];
    let which = random.below(3);
    if which != 1 {
        damage_second(&mut input, damage, random);
    }
    if which != 0 {
        damage(&mut input, random);
    }
    stream.add_parts(&input);
}

fn damage_second(input: &mut Input, damage: Damage, random: &mut Random) {
    let mut alone = Input {
        network: input.second.clone(),
        ..input.clone()
    };
    damage(&mut alone, random);
    input.second = alone.network;
}

/// Two fragments of one network, of which some bytes are not as they were.
pub fn disturbed(stream: &mut Stream, form: Form, random: &mut Random) {
    let [first, second] = &joined::fragments(form, random);
    disturb(stream, &Input::join(first, second), random);
}

/// Joins into a buffer that has just room for the joint network, or not, or more; some first networks
/// have bytes behind their total, and some lengths point past the end.
pub fn lent(stream: &mut Stream, form: Form, random: &mut Random) {
    let mut pair = joined::fragments(form, random);
    if random.one_in(8) {
        let (_, obstacle) = random.pick(&OBSTACLES);
        obstacle(&mut pair, random);
    }
    let [first, second] = &pair;
    let input = Input::join(first, second);
    let needed = input.answer().len();
    let rooms = [needed, needed, needed - 1, needed - 1, needed / 2, 0, 700];
    let room = *random.pick(&rooms) as u16;
    let mut network = input.network;
    if random.one_in(8) {
        network.extend(vec![0; random.within(1, 9)]);
    }
    let length = match random.below(12) {
        0 => network.len() - 1,
        1 => network.len() + input.second.len() + 1,
        _ => network.len(),
    } as u16;
    let parts = [&room.to_be_bytes()[..], &length.to_be_bytes(), &network];
    stream.add_parts(&Input {
        call: LENT_JOIN,
        network: parts.concat(),
        ..input
    });
}

/// As many nodes as a record may have, and one more, where the one network has three inputs of which the
/// other owns one and has the others, too. Then as many edges, and one more; and too many of both.
pub fn bounds(stream: &mut Stream, form: Form) {
    let half = form.most as u16 / 2;
    let outside = [form.most as u16 + 7, form.most as u16 + 9];
    for more in 0..2 {
        let first = bare(form, 0, half, 4, &[half, outside[0], outside[1]]);
        let mut second = bare(form, half, half - 2 + more, 4, &outside);
        second.nodes[0].promise = Promise::Holds(None);
        add(stream, &[first, second]);
    }
    for more in 0..2 {
        let first = bare(form, 0, 60, MOST_EDGES / 2 + more, &[]);
        add(stream, &[first, bare(form, 60, 60, MOST_EDGES / 2, &[])]);
    }
    let second = bare(form, half, half + 1, MOST_EDGES, &[]);
    add(stream, &[bare(form, 0, half, 1, &[]), second]);
}

/// Two halves of the largest record; the two largest records, which are too many nodes, in an input of
/// exactly the most bytes; and one byte more.
pub fn largest(stream: &mut Stream, form: Form, random: &mut Random) {
    add(stream, &joined::halves(form, random));
    let [first, second] = joined::two_largest(form);
    let input = Input::join(&first, &second);
    stream.add_parts(&input);
    let over = [&input.bytes()[..], &[0]].concat();
    stream.add(input.call, &over);
}
