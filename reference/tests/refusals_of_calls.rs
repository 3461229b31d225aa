//! The refusals 11 to 20, by records made by hand, with their places.

mod shared;

use reference::cut::cut;
use reference::form::{LIST_LEAD, SHEET_LEAD};
use reference::known;
use reference::plan::Node;
use reference::record::{check_network, read_entries};
use reference::refusal::Refusal;
use reference::route::{Demand, Promise, Route};
use shared::{cut_line, cut_records, judge, judge_records, line, over, refused};
use shared::{list_record, sheet_record, unknown_versions};

fn network() -> Vec<u8> {
    known::chain().record()
}

fn list() -> Vec<u8> {
    list_record(&known::chain_list())
}

fn sheet() -> Vec<u8> {
    sheet_record(&known::chain_sheet())
}

fn check_list(record: &[u8]) -> Result<(), Refusal> {
    read_entries::<LIST_LEAD>(record).map(|_| ())
}

fn check_sheet(record: &[u8]) -> Result<(), Refusal> {
    read_entries::<SHEET_LEAD>(record).map(|_| ())
}

#[test]
fn numbers_11_to_15_of_a_list_and_a_sheet() {
    for (record, is_list) in [(list(), true), (sheet(), false)] {
        let check = |record: &[u8]| {
            if is_list {
                check_list(record)
            } else {
                check_sheet(record)
            }
        };
        let total = record.len();
        let changed = |offset, bytes: &[u8]| over(record.clone(), offset, bytes);
        assert_eq!(check(&record), Ok(()));
        for length in 0..total {
            assert_eq!(check(&record[..length]), refused(11, length));
        }
        for version in unknown_versions() {
            assert_eq!(check(&changed(4, &[version])), refused(12, 4));
        }
        assert_eq!(check(&changed(5, &[2, 1])), refused(13, 5));
        assert_eq!(check(&changed(5, &[2, 0])), refused(14, 0));
        assert_eq!(check(&changed(3, &[0])), refused(14, 0));
        assert_eq!(check(&changed(3, &[0])[..20]), refused(14, 0));
        assert_eq!(check(&[&record[..], &[0]].concat()), refused(15, total));
    }
    let empty = [0, 0, 0, 3, 1, 0, 0];
    assert_eq!(check_list(&empty), Ok(()));
    assert_eq!(check_sheet(&empty), Ok(()));
}

#[test]
fn number_16_entry() {
    for (record, size) in [(list(), 11), (sheet(), 12)] {
        let check = |record: &[u8]| match size {
            11 => check_list(record),
            _ => check_sheet(record),
        };
        let (second, third) = (7 + size, 7 + 2 * size);
        let changed = |offset, bytes: &[u8]| over(record.clone(), offset, bytes);
        assert_eq!(check(&changed(second, &[0, 1])), refused(16, second));
        assert_eq!(check(&changed(second, &[0, 0])), refused(16, second));
        assert_eq!(check(&changed(second, &[0, 3])), refused(16, third));
        let route = third - 9;
        assert_eq!(check(&changed(route, &[2])), refused(16, second));
        assert_eq!(check(&changed(route, &[0])), refused(16, second));
        assert_eq!(check(&changed(route, &[0; 9])), Ok(()));
    }
    let high = over(sheet(), 7 + 12 + 2, &[64]);
    assert_eq!(check_sheet(&high), refused(16, 19));
    let nobody = over(list(), 7 + 22, &[9, 9, 7]);
    assert_eq!(check_list(&nobody), refused(16, 29), "of any id");
}

#[test]
fn number_17_missing_entry() {
    let plan = known::chain();
    let mut list = known::chain_list();
    list.remove(1);
    assert_eq!(judge(&plan, &list), "refused 17 2");
    list.remove(0);
    assert_eq!(judge(&plan, &list), "refused 17 1", "the lowest");
    assert_eq!(judge(&plan, &[]), "refused 17 1");
    let mut sheet = known::chain_sheet();
    sheet.remove(2);
    assert_eq!(cut_line(&plan, 0, &sheet), "refused 17 3", "any fragment");
    assert_eq!(cut_line(&plan, 64, &sheet), "refused 17 3", "before 18");
}

#[test]
fn number_17_is_not_for_inputs() {
    let mut plan = known::chain();
    plan.nodes[2] = Node::input(3, None);
    plan.edges.retain(|edge| edge.to != 3);
    let list = [(1, Some(known::START)), (2, Some(known::STRAIGHT))];
    assert_eq!(judge(&plan, &list), "pass 2");
}

#[test]
fn number_18_fragment_asked() {
    let (plan, mut sheet) = (known::chain(), known::chain_sheet());
    for asked in [2, 63, 64, 65, 255] {
        assert_eq!(
            cut_line(&plan, asked, &sheet),
            format!("refused 18 {asked}")
        );
    }
    sheet.push((9, 5, None));
    assert_eq!(cut_line(&plan, 5, &sheet), "refused 18 5", "nobody's entry");
    let mut plan = plan;
    plan.nodes[2] = Node::input(3, None);
    plan.edges.retain(|edge| edge.to != 3);
    assert_eq!(
        cut_line(&plan, 1, &sheet),
        "refused 18 1",
        "an input's entry"
    );
}

#[test]
fn number_19_promise_and_note() {
    let (mut plan, sheet) = (known::chain(), known::chain_sheet());
    let other = Some(Route::new(100, 9, 1, 0));
    plan.nodes[0].promise = Promise::Holds(other);
    assert_eq!(
        shared::cut(&plan, 0, &sheet).len(),
        119,
        "no cut edge leaves 1"
    );
    plan.nodes[2].promise = Promise::Holds(other);
    assert_eq!(cut_line(&plan, 0, &sheet), "refused 19 3");
    plan.nodes[1].promise = Promise::Holds(None);
    assert_eq!(
        cut_line(&plan, 1, &sheet),
        "refused 19 2",
        "none is a promise"
    );
    assert_eq!(cut_line(&plan, 7, &sheet), "refused 18 7", "18 before 19");
    plan.nodes[1].promise = Promise::Holds(Some(known::STRAIGHT));
    assert_eq!(cut_line(&plan, 1, &sheet), "refused 19 3");
}

#[test]
fn number_19_is_looked_for_in_the_whole_network() {
    let mut plan = known::chain();
    plan.nodes.push(Node::own(4, None));
    plan.wire(3, 4, 0);
    plan.nodes[2].promise = Promise::Holds(None);
    let mut sheet = known::chain_sheet();
    sheet[2].1 = 0;
    sheet.push((4, 1, None));
    sheet[0].1 = 2;
    assert_eq!(cut_line(&plan, 2, &sheet), "refused 19 3");
}

#[test]
fn number_20_buffer() {
    let (network, sheet) = (network(), sheet());
    for length in 0..119 {
        let mut out = vec![7; length];
        let refusal = Refusal {
            number: 20,
            place: 119,
        };
        assert_eq!(cut(&network, &sheet, 0, &mut out), Err(refusal));
        assert_eq!(out, vec![7; length]);
    }
}

#[test]
fn refused_calls_write_nothing() {
    let mut out = [7; 200];
    let ill = over(network(), 4, &[0]);
    assert!(cut(&ill, &sheet(), 0, &mut out).is_err());
    assert!(cut(&network(), &list(), 0, &mut out).is_err());
    assert!(cut(&network(), &sheet(), 9, &mut out).is_err());
    assert_eq!(out, [7; 200]);
}

#[test]
fn the_network_comes_before_the_second_record() {
    // The last edge's policy.
    let (ill, bad) = (over(network(), 123, &[1]), over(list(), 4, &[9]));
    assert_eq!(judge_records(&ill, &bad), "refused 9 119");
    assert_eq!(judge_records(&network(), &bad), "refused 12 4");
    let bad = over(sheet(), 4, &[9]);
    assert_eq!(line(&cut_records(&ill, 64, &bad)), "refused 9 119");
    assert_eq!(line(&cut_records(&network(), 64, &bad)), "refused 12 4");
    assert_eq!(judge_records(&network(), &sheet()), "refused 14 0");
}

#[test]
fn demands_are_read_from_their_bytes() {
    let mut plan = known::chain();
    plan.nodes[2].demand = Demand::NoRoute;
    assert_eq!(check_network(&plan.record()), Ok(()));
    assert_eq!(judge(&plan, &known::chain_list()), "found 33 3 3 100 2 1 0");
}
