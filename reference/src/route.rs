//! Routes, policies and demands: what a wire does to a route, which of two routes is better, and
//! when a box holds what is asked of it.
//!
//! "No route" is a value like any other, so a route is an `Option<Route>` wherever one stands.

use crate::form::{Form, POLICY};

/// The highest cost that a wire may give.
pub const TOP: u16 = 65_535;

/// A present route: preference, cost, origin and tags as one number, as the eight bytes behind
/// the present byte spell it. Two routes are then compared in one step.
#[derive(Clone, Copy, PartialEq, Eq)]
pub struct Route(u64);

impl Route {
    pub const fn new(preference: u16, cost: u16, origin: u16, tags: u16) -> Route {
        let high = (preference as u64) << 48 | (cost as u64) << 32;
        Route(high | (origin as u64) << 16 | tags as u64)
    }

    pub const fn preference(self) -> u16 {
        (self.0 >> 48) as u16
    }

    pub const fn cost(self) -> u16 {
        (self.0 >> 32) as u16
    }

    pub const fn origin(self) -> u16 {
        (self.0 >> 16) as u16
    }

    pub const fn tags(self) -> u16 {
        self.0 as u16
    }

    /// Decisions 2 to 5 as one number, higher is better: the fields stand in the order in which
    /// they are compared, and cost, origin and tags, of which the lower wins, are turned round.
    const fn rank(self) -> u64 {
        self.0 ^ 0x0000_ffff_ffff_ffff
    }

    /// Different routes differ in rank, so the best of a set is one route.
    pub const fn beats(self, other: Route) -> bool {
        self.rank() > other.rank()
    }
}

impl std::fmt::Debug for Route {
    fn fmt(&self, out: &mut std::fmt::Formatter) -> std::fmt::Result {
        let fields = (self.preference(), self.cost(), self.origin(), self.tags());
        write!(out, "{fields:?}")
    }
}

/// The better of two routes; any route is better than none, which is decision 1.
pub fn better(one: Option<Route>, other: Option<Route>) -> Option<Route> {
    if other.map(Route::rank) > one.map(Route::rank) {
        other
    } else {
        one
    }
}

/// The first eight bytes of a route. With the fields they are all of it, since a route has no
/// more than sixteen.
fn first(bytes: &[u8]) -> &[u8; 8] {
    bytes.first_chunk().expect("eight bytes and more")
}

/// The fields, which are the last eight bytes.
fn fields(bytes: &[u8]) -> &[u8; 8] {
    bytes.last_chunk().expect("eight bytes and more")
}

/// True of the bytes of no route, which are all zero.
pub fn is_none(bytes: &[u8]) -> bool {
    u64::from_be_bytes(*first(bytes)) | u64::from_be_bytes(*fields(bytes)) == 0
}

/// True of the bytes of a route, and of no route: a byte behind a zero present byte would make a
/// second spelling of "none".
pub fn well_formed(bytes: &[u8]) -> bool {
    (bytes[0] == 1) | is_none(bytes)
}

/// The route that well-formed bytes stand for.
pub fn read(bytes: &[u8]) -> Option<Route> {
    (bytes[0] == 1).then_some(Route(u64::from_be_bytes(*fields(bytes))))
}

/// Copies the bytes of a route.
#[inline]
pub fn copy(from: &[u8], to: &mut [u8]) {
    let (start, end) = (first(from), fields(from));
    to[..8].copy_from_slice(start);
    let width = to.len();
    to[width - 8..].copy_from_slice(end);
}

/// The bytes of a route in a record of this form.
pub fn bytes(form: Form, route: Option<Route>) -> Vec<u8> {
    let mut bytes = vec![0; form.route];
    if let Some(Route(fields)) = route {
        bytes[0] = 1;
        bytes[form.route - 8..].copy_from_slice(&fields.to_be_bytes());
    }
    bytes
}

/// What a wire does. `preference` is the one that replaces the route's, where the flag is 1.
#[derive(Clone, Copy, Debug, Default, PartialEq, Eq)]
pub struct Policy {
    pub need: u16,
    pub bar: u16,
    pub clear: u16,
    pub set: u16,
    pub preference: Option<u16>,
    pub cost: u16,
}

impl Policy {
    /// A policy that only adds to the cost.
    pub const fn adding(cost: u16) -> Policy {
        Policy {
            need: 0,
            bar: 0,
            clear: 0,
            set: 0,
            preference: None,
            cost,
        }
    }

    /// The policy that well-formed bytes stand for.
    pub fn read(bytes: &[u8; POLICY]) -> Policy {
        let [n1, n0, b1, b0, c1, c0, s1, s0, flag, p1, p0, a1, a0] = *bytes;
        let preference = u16::from_be_bytes([p1, p0]);
        Policy {
            need: u16::from_be_bytes([n1, n0]),
            bar: u16::from_be_bytes([b1, b0]),
            clear: u16::from_be_bytes([c1, c0]),
            set: u16::from_be_bytes([s1, s0]),
            preference: (flag == 1).then_some(preference),
            cost: u16::from_be_bytes([a1, a0]),
        }
    }

    /// Flag 0 with a preference would be a second spelling of a policy without one. Over wires that
    /// add 0 two boxes could hold a route that neither started, each by quoting the other.
    pub fn well_formed(bytes: &[u8; POLICY]) -> bool {
        let preference = match bytes[8] {
            0 => bytes[9] == 0 && bytes[10] == 0,
            1 => true,
            _ => false,
        };
        let adds = bytes[11] != 0 || bytes[12] != 0;
        preference && adds
    }
}

/// The route that arrives over a wire with this policy. Need and bar look at the tags as they
/// arrive, before clear and set; a cost over `top` stops the route. The tests are joined without
/// branches, which would be mispredicted at every other wire.
pub fn carry(policy: &Policy, route: Option<Route>, top: u16) -> Option<Route> {
    let route = route?;
    let tags = route.tags();
    let cost = u32::from(route.cost()) + u32::from(policy.cost);
    let lacks = tags & policy.need != policy.need;
    let barred = tags & policy.bar != 0;
    let over = cost > u32::from(top);
    (!(lacks | barred | over)).then_some(Route::new(
        policy.preference.unwrap_or(route.preference()),
        cost as u16,
        route.origin(),
        tags & !policy.clear | policy.set,
    ))
}

/// What a box says it will hold. `Holds(None)` is a promise too: to hold no route.
#[derive(Clone, Copy, Debug, PartialEq, Eq)]
pub enum Promise {
    Nothing,
    Holds(Option<Route>),
}

/// What is asked of a box: demands 0, 1 and 2.
#[derive(Clone, Copy, Debug, PartialEq, Eq)]
pub enum Demand {
    Nothing,
    Route { ceiling: u16, tags: u16 },
    NoRoute,
}

/// A box that must hold a route and holds none does not meet the demand, though it has no cost
/// to exceed the ceiling.
pub fn meets(demand: Demand, held: Option<Route>) -> bool {
    match (demand, held) {
        (Demand::Nothing, _) => true,
        (Demand::Route { ceiling, tags }, Some(route)) => {
            route.cost() <= ceiling && route.tags() & tags == tags
        }
        (Demand::Route { .. }, None) => false,
        (Demand::NoRoute, held) => held.is_none(),
    }
}
