//! The groups of stored cases.

use super::examples::{self, About};
use super::{counted, inputs, traced, Stream};
use crate::call::{Call, CENSUS, CUT, JOIN, JUDGE, LENT, TRAIL};
use crate::damage;
use crate::form::{Form, VERSION_1};
use crate::input::Input;
use crate::known;
use crate::plan::{list_record, sheet_record};
use crate::random::Random;
use crate::scene::{self, Scene, Style};

mod by_hand;
mod joins;
mod trails;

/// The form of a group's records, how often cases are added, and what adds them.
type Group = (Form, usize, fn(&mut Stream, Form, &mut Random));

/// What makes an input for some call out of a scene.
type Maker = fn(Scene, &mut Random) -> Input;

/// A group's place says what it draws its numbers from, so a new one comes last.
pub const ALL: [Group; 47] = [
    (VERSION_1, 1, |s, f, _| by_hand::known_plans(s, f)),
    (VERSION_1, 1, |s, f, r| odd_frames(s, &[JUDGE, CUT], f, r)),
    (VERSION_1, 1_000, |s, f, r| small(s, inputs::judge, f, r)),
    (VERSION_1, 800, |s, f, r| small(s, inputs::cut, f, r)),
    (VERSION_1, 200, |s, f, r| {
        part(s, JUDGE, inputs::small, f, r)
    }),
    (VERSION_1, 2_000, |s, f, r| damaged(s, either, f, r)),
    (VERSION_1, 300, |s, f, r| damaged_twice(s, either, f, r)),
    (VERSION_1, 900, |s, f, r| disturbed(s, either, f, r)),
    (VERSION_1, 110, |s, f, r| middling(s, either, f, r)),
    (VERSION_1, 1, largest),
    (VERSION_1, 1, |s, f, r| over_size(s, &[JUDGE, CUT], f, r)),
    (VERSION_1, 300, lent),
    (VERSION_1, 1, |s, _, _| example_plans(s, About::Judging)),
    (VERSION_1, 1, |s, f, _| by_hand::known_counted(s, f)),
    (VERSION_1, 1, |s, f, r| odd_frames(s, &[CENSUS], f, r)),
    (VERSION_1, 400, |s, f, r| small(s, counted::census, f, r)),
    (VERSION_1, 120, |s, f, r| {
        part(s, CENSUS, counted::hushed, f, r)
    }),
    (VERSION_1, 300, |s, f, r| damaged(s, counted::census, f, r)),
    (VERSION_1, 100, |s, f, r| {
        disturbed(s, counted::census, f, r)
    }),
    (VERSION_1, 20, |s, f, r| middling(s, counted::census, f, r)),
    (VERSION_1, 1, largest_counted),
    (VERSION_1, 1, |s, f, r| over_size(s, &[CENSUS], f, r)),
    (VERSION_1, 1, |s, _, _| example_plans(s, About::Census)),
    (VERSION_1, 1, |s, f, _| by_hand::known_pairs(s, f)),
    (VERSION_1, 150, ill_policies),
    (VERSION_1, 1, |s, f, _| by_hand::known_traced(s, f)),
    (VERSION_1, 1, |s, f, r| odd_frames(s, &[TRAIL], f, r)),
    (VERSION_1, 200, |s, f, r| small(s, traced::trail, f, r)),
    (VERSION_1, 60, trails::tied),
    (VERSION_1, 8, trails::every_node),
    (VERSION_1, 80, |s, f, r| small(s, traced::part, f, r)),
    (VERSION_1, 160, |s, f, r| damaged(s, traced::trail, f, r)),
    (VERSION_1, 90, trails::misnamed),
    (VERSION_1, 60, |s, f, r| disturbed(s, traced::trail, f, r)),
    (VERSION_1, 10, |s, f, r| middling(s, traced::trail, f, r)),
    (VERSION_1, 1, |s, f, _| trails::largest(s, f)),
    (VERSION_1, 1, |s, _, _| example_plans(s, About::Trail)),
    (VERSION_1, 1, |s, f, _| by_hand::known_joined(s, f)),
    (VERSION_1, 1, |s, f, r| odd_frames(s, &[JOIN], f, r)),
    (VERSION_1, 150, joins::fragments),
    (VERSION_1, 150, joins::hindered),
    (VERSION_1, 120, joins::damaged),
    (VERSION_1, 60, joins::disturbed),
    (VERSION_1, 100, joins::lent),
    (VERSION_1, 1, |s, f, _| joins::bounds(s, f)),
    (VERSION_1, 1, joins::largest),
    (VERSION_1, 1, |s, _, _| example_plans(s, About::Joining)),
];

/// The judge's input or the cutter's.
fn either(scene: Scene, random: &mut Random) -> Input {
    if random.one_in(2) {
        inputs::judge(scene, random)
    } else {
        inputs::cut(scene, random)
    }
}

/// Up to three ill-formed policies, used or not, to see which is named.
fn ill_policies(stream: &mut Stream, form: Form, random: &mut Random) {
    let mut scene = inputs::small(form, random);
    for _ in 0..random.below(4) {
        let unused = scene::policy(Style::Steady, random);
        scene.plan.policies.push(unused);
    }
    let make = *random.pick(&[inputs::judge, inputs::cut, counted::census]);
    let mut input = make(scene, random);
    for _ in 0..random.within(1, 3) {
        let damage = *random.pick(&[
            damage::policy_flag,
            damage::policy_preference,
            damage::policy_adds_nothing,
        ]);
        damage(&mut input, random);
    }
    stream.add_parts(&input);
}

/// Inputs of a few bytes, and records where others belong.
fn odd_frames(stream: &mut Stream, calls: &[&'static Call], form: Form, random: &mut Random) {
    let network = known::chain().of(form).record();
    let list = list_record(form, &known::chain_list());
    let sheet = sheet_record(form, &known::chain_sheet());
    for call in calls {
        for length in 0..16 {
            let noise: Vec<u8> = (0..length).map(|_| random.byte()).collect();
            stream.add(call, &vec![0; length]);
            stream.add(call, &vec![255; length]);
            stream.add(call, &noise);
        }
        stream.add(call, &network);
        stream.add(call, &[&network[..], &[0]].concat());
        stream.add(call, &[&network[..], &list].concat());
        stream.add(call, &[&network[..], &sheet].concat());
        stream.add(call, &[&network[..], &[1], &list].concat());
        stream.add(call, &[&network[..], &network].concat());
        stream.add(call, &[&list[..], &network].concat());
        stream.add(call, &[&sheet[..], &sheet].concat());
    }
}

/// A scene of a few boxes.
fn small(stream: &mut Stream, make: Maker, form: Form, random: &mut Random) {
    stream.add_parts(&some_input(make, form, random));
}

fn some_input(make: Maker, form: Form, random: &mut Random) -> Input {
    let scene = inputs::small(form, random);
    make(scene, random)
}

/// A scene of some dozens of boxes.
fn middling(stream: &mut Stream, make: Maker, form: Form, random: &mut Random) {
    let scene = inputs::middling(form, random);
    stream.add_parts(&make(scene, random));
}

/// A fragment, judged or counted with the list of the whole.
fn part(
    stream: &mut Stream,
    call: &'static Call,
    scene: fn(Form, &mut Random) -> Scene,
    form: Form,
    random: &mut Random,
) {
    let scene = scene(form, random);
    let whole = inputs::judge(scene.clone(), random);
    let network = inputs::cut(scene, random).answer();
    stream.add_parts(&Input {
        call,
        network,
        ..whole
    });
}

/// All damages in turn.
fn damaged(stream: &mut Stream, make: Maker, form: Form, random: &mut Random) {
    let (_, damage) = damage::ALL[stream.cases.len() % damage::ALL.len()];
    let mut input = some_input(make, form, random);
    damage(&mut input, random);
    stream.add_parts(&input);
}

/// Two damages, to see which is named.
fn damaged_twice(stream: &mut Stream, make: Maker, form: Form, random: &mut Random) {
    let mut input = some_input(make, form, random);
    for _ in 0..2 {
        let (_, damage) = random.pick(&damage::ALL);
        damage(&mut input, random);
    }
    stream.add_parts(&input);
}

fn disturbed(stream: &mut Stream, make: Maker, form: Form, random: &mut Random) {
    let input = some_input(make, form, random);
    disturb(stream, &input, random);
}

/// Flipped bits, changed bytes, bytes put in, taken out, cut off or added anywhere.
fn disturb(stream: &mut Stream, input: &Input, random: &mut Random) {
    let mut bytes = input.bytes();
    for _ in 0..random.within(1, 3) {
        let place = random.below(bytes.len().max(1));
        match random.below(8) {
            0..=2 => bytes[place] ^= 1 << random.below(8),
            3 => bytes[place] = random.byte(),
            4 => bytes.truncate(place.max(1)),
            5 => bytes.insert(place, random.byte()),
            6 if bytes.len() > 1 => drop(bytes.remove(place)),
            _ => bytes.push(random.byte()),
        }
    }
    stream.add(input.call, &bytes);
}

fn largest(stream: &mut Stream, form: Form, random: &mut Random) {
    for input in inputs::largest(form, random) {
        stream.add_parts(&input);
    }
}

fn largest_counted(stream: &mut Stream, form: Form, random: &mut Random) {
    for input in counted::largest(form, random) {
        stream.add_parts(&input);
    }
}

/// Inputs of exactly the most bytes, and of one more: a list that passes, and zeros.
fn over_size(stream: &mut Stream, calls: &[&'static Call], form: Form, random: &mut Random) {
    let full = inputs::largest_judge(form, random);
    for call in calls {
        let bound = call.bound().expect("a program's bound");
        for mut bytes in [full.bytes(), vec![]] {
            bytes.resize(bound, 0);
            stream.add(call, &bytes);
            bytes.push(0);
            stream.add(call, &bytes);
        }
    }
}

/// Cuts into a buffer that has just room for the fragment, or not, or more; some networks have
/// bytes behind their total.
fn lent(stream: &mut Stream, form: Form, random: &mut Random) {
    let scene = inputs::small(form, random);
    let input = inputs::cut(scene, random);
    let needed = input.answer().len();
    let rooms = [needed, needed, needed - 1, needed - 1, needed / 2, 0, 400];
    let room = *random.pick(&rooms) as u16;
    let mut network = input.network;
    if random.one_in(6) {
        network.extend(vec![0; random.within(1, 9)]);
    }
    let length = network.len() as u16;
    let parts = [&room.to_be_bytes()[..], &length.to_be_bytes(), &network];
    stream.add_parts(&Input {
        call: LENT,
        network: parts.concat(),
        ..input
    });
}

/// The example plans next to this package, by name, as far as they are about this.
fn example_plans(stream: &mut Stream, about: About) {
    let mut plans: Vec<_> = examples::plans().collect();
    plans.retain(|(path, call, _)| About::of(path, call) == about);
    plans.sort_unstable_by(|one, other| one.0.cmp(&other.0));
    for (_, call, input) in plans {
        stream.add(call, &input);
    }
}
