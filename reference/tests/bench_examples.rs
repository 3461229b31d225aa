//! The bench examples of the rules, one by one.

mod shared;

use reference::cut::cut;
use reference::known::{self, AROUND, QUOTED, STRAIGHT};
use reference::plan::{Listed, Node, Plan};
use reference::record::check_network;
use reference::refusal::Refusal;
use reference::route::{better, carry, Demand, Policy, Promise, Route, TOP};
use shared::{cut_line, judge, refused, sheet_record};

fn route(preference: u16, cost: u16, origin: u16, tags: u16) -> Route {
    Route::new(preference, cost, origin, tags)
}

#[test]
fn higher_preference_beats_lower_cost() {
    let (one, other) = (route(200, 9, 1, 0), route(100, 5, 1, 0));
    assert!(one.beats(other) && !other.beats(one));
    assert_eq!(better(Some(other), Some(one)), Some(one));
}

#[test]
fn lower_origin_beats_higher() {
    let (one, other) = (route(100, 5, 1, 0), route(100, 5, 2, 0));
    assert!(one.beats(other) && !other.beats(one));
    assert_eq!(better(Some(other), Some(one)), Some(one));
}

#[test]
fn cost_adds_up_to_65535_and_no_further() {
    let add = |cost, more| carry(&Policy::adding(more), Some(route(100, cost, 1, 0)), TOP);
    assert_eq!(add(65_534, 1), Some(route(100, 65_535, 1, 0)));
    assert_eq!(add(65_535, 1), None);
}

#[test]
fn cost_65535_add_0_is_a_refused_policy() {
    let highest = Some(route(100, 65_535, 1, 0));
    let mut plan = known::pair(&[Policy::adding(0)]);
    plan.nodes[0].route = highest;
    let list = known::pair_list(highest);
    assert_eq!(judge(&plan, &list), "refused 6 10");
}

#[test]
fn boxes_that_quote_each_other() {
    let list = known::pair_list(Some(QUOTED));
    let line = |added| judge(&known::pair(&[Policy::adding(added)]), &list);
    assert_eq!(line(0), "refused 6 10");
    assert_eq!(line(1), "found 31 1 1 100 6 1 0");
    assert_eq!(line(u16::MAX), "found 31 1 1 none");
}

#[test]
fn a_policy_that_no_wire_uses() {
    let plan = known::pair(&[Policy::adding(1), Policy::adding(0)]);
    assert_eq!(judge(&plan, &known::pair_list(None)), "refused 6 23");
}

#[test]
fn tags_over_a_wire() {
    let plain = Policy::default();
    let over = |policy: Policy, tags| carry(&policy, Some(route(1, 1, 1, tags)), TOP);
    let change = Policy {
        clear: 3,
        set: 1,
        ..plain
    };
    assert_eq!(over(change, 7), Some(route(1, 1, 1, 5)));
    assert_eq!(over(Policy { need: 6, ..plain }, 5), None);
    assert_eq!(over(Policy { bar: 6, ..plain }, 4), None);
}

#[test]
fn chain_passes() {
    assert_eq!(judge(&known::chain(), &known::chain_list()), "pass 3");
}

#[test]
fn chain_with_ceiling_1() {
    let mut plan = known::chain();
    plan.nodes[2].demand = Demand::Route {
        ceiling: 1,
        tags: 0,
    };
    let line = judge(&plan, &known::chain_list());
    assert_eq!(line, "found 33 3 3 100 2 1 0");
}

fn nothing_listed() -> Vec<Listed> {
    vec![(1, None), (2, None), (3, None)]
}

#[test]
fn chain_with_no_route_anywhere() {
    let line = judge(&known::chain(), &nothing_listed());
    assert_eq!(line, "found 31 1 1 100 0 1 0");
}

#[test]
fn chain_without_a_start() {
    let mut plan = known::chain();
    plan.nodes[0].route = None;
    assert_eq!(judge(&plan, &nothing_listed()), "found 33 3 3 none");
}

#[test]
fn chain_record_and_its_fragments() {
    let (plan, sheet) = (known::chain(), known::chain_sheet());
    assert_eq!(plan.record().len(), 124);
    assert_eq!(shared::cut(&plan, 0, &sheet).len(), 119);
    let mut last = Plan {
        policies: plan.policies.clone(),
        nodes: vec![Node::input(2, Some(STRAIGHT)), plan.nodes[2].clone()],
        ..Plan::default()
    };
    // The wire back to 2 is cut, too, so 3 has to promise its note.
    last.nodes[1].promise = Promise::Holds(Some(route(100, 2, 1, 0)));
    last.wire(2, 3, 0);
    assert_eq!(shared::cut(&plan, 1, &sheet), last.record());
    assert_eq!(last.record().len(), 82);
}

#[test]
fn buffer_of_81_is_short_and_82_is_enough() {
    let network = known::chain().record();
    let sheet = sheet_record(&known::chain_sheet());
    let mut short = [0xaa; 81];
    let refusal = Refusal {
        number: 20,
        place: 82,
    };
    assert_eq!(cut(&network, &sheet, 1, &mut short), Err(refusal));
    assert_eq!(short, [0xaa; 81], "a refused call writes nothing");
    let mut enough = [0xaa; 82];
    assert_eq!(cut(&network, &sheet, 1, &mut enough), Ok(82));
    let mut more = [0xaa; 90];
    assert_eq!(cut(&network, &sheet, 1, &mut more), Ok(82));
    assert_eq!(more[..82], enough);
    assert_eq!(more[82..], [0xaa; 8], "bytes behind the record stay");
}

#[test]
fn two_answers() {
    let plan = known::two_answers();
    let line = |two, three| judge(&plan, &known::around_list(&[two, three]));
    assert_eq!(line(STRAIGHT, AROUND), "pass 3");
    assert_eq!(line(AROUND, STRAIGHT), "pass 3");
    assert_eq!(line(STRAIGHT, STRAIGHT), "found 31 2 2 200 2 1 1");
    assert_eq!(line(AROUND, AROUND), "found 31 2 2 100 1 1 0");
}

fn many(count: u16) -> Plan {
    Plan {
        nodes: (0..count).map(|id| Node::own(id, None)).collect(),
        ..Plan::default()
    }
}

#[test]
fn nodes_512_and_513() {
    assert_eq!(check_network(&many(512).record()), Ok(()));
    assert_eq!(check_network(&many(513).record()), refused(3, 5));
}

#[test]
fn fragments_63_and_64() {
    let mut sheet = known::chain_sheet();
    sheet[2].1 = 63;
    assert_eq!(shared::cut(&known::chain(), 63, &sheet).len(), 82);
    assert_eq!(cut_line(&known::chain(), 64, &sheet), "refused 18 64");
    assert_eq!(cut_line(&known::chain(), 1, &sheet), "refused 18 1");
}

#[test]
fn all_boxes_in_fragment_0() {
    let sheet: Vec<_> = known::chain_sheet()
        .into_iter()
        .map(|(id, _, note)| (id, 0, note))
        .collect();
    let plan = known::chain();
    assert_eq!(shared::cut(&plan, 0, &sheet), plan.record());
}

#[test]
fn no_list_passes_the_bad_gadget() {
    let plan = known::bad_gadget();
    for choice in 0..8 {
        let pick = |bit: usize| [STRAIGHT, AROUND][choice >> bit & 1];
        let list = known::around_list(&[pick(0), pick(1), pick(2)]);
        assert!(judge(&plan, &list).starts_with("found 31 "), "{list:?}");
    }
}
