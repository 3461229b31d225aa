//! The values that scenes are made of: policies, routes and demands.

use super::Style;
use crate::random::Random;
use crate::route::{Demand, Policy, Route};

pub fn policy(style: Style, random: &mut Random) -> Policy {
    let mut policy = Policy::adding(random.within(1, 9) as u16);
    let tag = |random: &mut Random| {
        if random.one_in(4) {
            1 << random.below(3)
        } else {
            0
        }
    };
    match style {
        Style::Plain => {}
        Style::Steady => {
            policy.need = tag(random) & 1;
            policy.bar = tag(random) & 2;
            policy.clear = tag(random);
            policy.set = tag(random);
            policy.preference = random.one_in(6).then_some(50);
        }
        Style::Preferring => {
            policy.cost = random.below(4).max(1) as u16;
            policy.bar = tag(random);
            policy.set = tag(random);
            policy.preference = random
                .one_in(2)
                .then_some(100 + 50 * random.below(4) as u16);
        }
        Style::Wild => {
            policy.need = extreme(random) & extreme(random) & extreme(random);
            policy.bar = extreme(random) & extreme(random) & extreme(random);
            policy.clear = extreme(random);
            policy.set = extreme(random) & extreme(random);
            policy.preference = random.one_in(3).then_some(extreme(random));
            policy.cost = (extreme(random) >> random.below(16)).max(1);
        }
    }
    policy
}

pub fn route(style: Style, id: u16, random: &mut Random) -> Route {
    let low = random.below(6) as u16;
    match style {
        Style::Plain => Route::new(100, low, id, 0),
        Style::Steady | Style::Preferring => Route::new(100, low, id, random.below(8) as u16),
        Style::Wild => Route::new(
            extreme(random),
            extreme(random),
            extreme(random),
            extreme(random),
        ),
    }
}

/// A 16-bit value, one of those at an edge half of the time.
pub fn extreme(random: &mut Random) -> u16 {
    if random.one_in(2) {
        *random.pick(&[0, 0, 1, 2, 255, 256, 0x7fff, 0x8000, 0xfffe, 0xffff])
    } else {
        random.number()
    }
}

/// Any route but this one; often one that differs in a single field, or no route.
pub fn other_route(route: Option<Route>, random: &mut Random) -> Option<Route> {
    let Some(route) = route else {
        return Some(self::route(Style::Wild, 0, random));
    };
    let change = random.within(1, 3) as u16;
    let (preference, cost) = (route.preference(), route.cost());
    let (origin, tags) = (route.origin(), route.tags());
    match random.below(6) {
        0 => Some(Route::new(
            preference.wrapping_add(change),
            cost,
            origin,
            tags,
        )),
        1 => Some(Route::new(
            preference,
            cost.wrapping_add(change),
            origin,
            tags,
        )),
        2 => Some(Route::new(
            preference,
            cost.wrapping_sub(change),
            origin,
            tags,
        )),
        3 => Some(Route::new(
            preference,
            cost,
            origin.wrapping_add(change),
            tags,
        )),
        4 => Some(Route::new(preference, cost, origin, tags ^ change)),
        _ => None,
    }
}

pub fn met_demand(held: Option<Route>, random: &mut Random) -> Demand {
    match held {
        None => Demand::NoRoute,
        Some(route) => Demand::Route {
            ceiling: route.cost().saturating_add(random.below(3) as u16),
            tags: route.tags() & random.number(),
        },
    }
}

pub fn unmet_demand(held: Option<Route>, random: &mut Random) -> Demand {
    let Some(route) = held else {
        let (ceiling, tags) = (extreme(random), extreme(random));
        return Demand::Route { ceiling, tags };
    };
    let missing = !route.tags() & random.number();
    match random.below(3) {
        0 if route.cost() > 0 => Demand::Route {
            ceiling: route.cost() - 1,
            tags: 0,
        },
        1 if missing != 0 => Demand::Route {
            ceiling: u16::MAX,
            tags: missing,
        },
        _ => Demand::NoRoute,
    }
}
