//! What must hold of every trail, tried on many plans.

mod shared;

use reference::cases::{inputs, traced};
use reference::form::FORMS;
use reference::plan::{list_record, sheet_record};
use reference::random::Random;
use reference::route::{carry, Route, TOP};
use reference::scene::Scene;
use reference::trail::{trail, Step};
use shared::{cut_bytes, judge_records};
use std::collections::BTreeSet;

const TRIES: usize = 1_000;

/// A scene whose list passes, some of whose boxes start with what they would be supplied.
fn some_scene(random: &mut Random) -> Scene {
    let form = *random.pick(&FORMS);
    let make = *random.pick(&[inputs::small, traced::tied]);
    loop {
        let mut scene = make(form, random);
        if random.one_in(3) {
            scene.start_as_held(4, random);
        }
        if scene.settled {
            return scene;
        }
    }
}

/// The trail of an own box of a scene.
fn traced(scene: &Scene, id: u16) -> Vec<Step> {
    let list = list_record(scene.plan.form, &scene.list());
    trail(&scene.plan.record(), &list, id, TOP).expect("a list that passes")
}

/// What the wire from one box to another gives, where there is one.
fn given(scene: &Scene, from: Step, to: Step) -> Option<Option<Route>> {
    let mut edges = scene.plan.edges.iter();
    let edge = edges.find(|edge| (edge.to, edge.from) == (to.id, from.id))?;
    let policy = &scene.plan.policies[usize::from(edge.policy)];
    Some(carry(policy, from.route, TOP))
}

/// Whether the walk stops at a box: it is an input, or holds the route that it starts with.
fn stops(scene: &Scene, step: Step) -> bool {
    let row = scene.plan.row(step.id).expect("a box");
    let node = &scene.plan.nodes[row];
    !node.own || node.route == step.route
}

/// From each own box a trail leads back over wires, each of which gives the box before it what that
/// holds, to the first at which it stops.
#[test]
fn each_box_holds_what_the_next_one_gives() {
    let random = &mut Random::new(21);
    let (mut long, mut fed) = (0, 0);
    for _ in 0..TRIES {
        let scene = some_scene(random);
        for id in scene.plan.own_ids() {
            let steps = traced(&scene, id);
            assert_eq!(steps[0].id, id);
            let (last, before) = steps.split_last().expect("a box");
            assert!(stops(&scene, *last) && !before.iter().any(|step| stops(&scene, *step)));
            for pair in steps.windows(2) {
                assert_eq!(given(&scene, pair[1], pair[0]), Some(pair[0].route));
            }
            long += usize::from(steps.len() > 3);
            fed += usize::from(!scene.plan.own_ids().any(|own| own == last.id));
        }
    }
    assert!(long > 200 && fed > 200, "{long} {fed}");
}

/// No lower sender gives the same.
#[test]
fn each_sender_is_the_lowest() {
    let random = &mut Random::new(22);
    let mut higher = 0;
    for _ in 0..TRIES {
        let scene = some_scene(random);
        for id in scene.plan.own_ids() {
            for pair in traced(&scene, id).windows(2) {
                let all = scene.plan.nodes.iter().zip(&scene.held);
                let supply = all.filter(|(node, held)| {
                    let from = Step {
                        id: node.id,
                        route: **held,
                    };
                    given(&scene, from, pair[0]) == Some(pair[0].route)
                });
                let ids: Vec<u16> = supply.map(|(node, _)| node.id).collect();
                assert_eq!(ids.iter().min(), Some(&pair[1].id));
                higher += usize::from(ids.len() > 1);
            }
        }
    }
    assert!(higher > 200, "{higher}");
}

/// A trail visits no box twice, and has no more wires than the network has own boxes. Costs fall.
#[test]
fn a_trail_is_no_longer_than_the_network() {
    let random = &mut Random::new(23);
    for _ in 0..TRIES {
        let scene = some_scene(random);
        let own = scene.plan.own_ids().count();
        for id in scene.plan.own_ids() {
            let steps = traced(&scene, id);
            let ids: BTreeSet<u16> = steps.iter().map(|step| step.id).collect();
            assert!(ids.len() == steps.len() && steps.len() <= own + 1);
            let costs = |step: &Step| step.route.map(|route| route.cost());
            assert!(steps.windows(2).all(|p| costs(&p[1]) < costs(&p[0])));
            assert!(steps.len() == 1 || steps.iter().all(|step| step.route.is_some()));
        }
    }
}

/// Behind each of its own boxes a trail goes on as that box's own trail.
#[test]
fn the_rest_of_a_trail_is_a_trail() {
    let random = &mut Random::new(24);
    for _ in 0..TRIES {
        let scene = some_scene(random);
        for id in scene.plan.own_ids() {
            let steps = traced(&scene, id);
            for (place, step) in steps.iter().enumerate() {
                if scene.plan.own_ids().any(|own| own == step.id) {
                    assert_eq!(traced(&scene, step.id), steps[place..]);
                }
            }
        }
    }
}

/// Where the notes are what the boxes hold, a box's trail in its fragment is the start of its trail
/// in the whole, as far as the first box that is not in the fragment.
#[test]
fn a_fragment_has_the_start_of_the_trail() {
    let random = &mut Random::new(25);
    let mut ended = 0;
    for _ in 0..TRIES {
        let scene = some_scene(random);
        let (form, network) = (scene.plan.form, scene.plan.record());
        let numbers: Vec<u8> = scene.held.iter().map(|_| random.below(2) as u8).collect();
        let entries = scene.sheet(&numbers);
        let sheet = sheet_record(form, &entries);
        let list = list_record(form, &scene.list());
        for (id, number, _) in &entries {
            let fragment = cut_bytes(&[&network[..], &[*number], &sheet].concat());
            assert!(judge_records(&fragment, &list).starts_with("pass"));
            let part = trail(&fragment, &list, *id, TOP).expect("a list that passes");
            let whole = traced(&scene, *id);
            let inside = |step: &&Step| entries.iter().any(|e| (e.0, e.1) == (step.id, *number));
            let within = whole.iter().take_while(inside).count();
            assert_eq!(part, whole[..whole.len().min(within + 1)]);
            ended += usize::from(part.len() < whole.len());
        }
    }
    assert!(ended > 200, "{ended}");
}
