//! Sizes at and over the bounds, and inputs that are hardly inputs at all.

mod shared;

use reference::bench::{self, Load};
use reference::call::{CUT, JOIN, JUDGE, TRAIL};
use reference::form::{Form, FORMS, LIST_LEAD, SHEET_LEAD, VERSION_1};
use reference::known;
use reference::plan::{self, Node, Plan};
use reference::program::split;
use reference::record::{check_network, read_entries};
use reference::route::Policy;
use shared::{cut_bytes, judge_bytes, judge_records, line, lines, list_record, refused};

/// Own nodes, each with wires from those that follow it (round the end), and policies.
fn dense(form: Form, nodes: usize, edges: usize, policies: usize) -> Plan {
    let nodes = nodes as u16;
    let mut plan = Plan {
        form,
        policies: vec![Policy::adding(1); policies],
        nodes: (0..nodes).map(|id| Node::own(id, None)).collect(),
        edges: vec![],
    };
    for edge in 0..edges {
        let to = (edge % usize::from(nodes)) as u16;
        let step = (edge / usize::from(nodes)) as u16 + 1;
        plan.wire((to + step) % nodes, to, (edge % policies) as u8);
    }
    plan
}

#[test]
fn sizes_of_document_01() {
    let form = VERSION_1;
    assert_eq!((form.version, form.route, form.most), (1, 9, 512));
    assert_eq!(form.node(), 27);
    let [list, sheet] = [LIST_LEAD, SHEET_LEAD].map(|lead| form.entry(lead));
    assert_eq!((list, sheet), (11, 12));
    assert_eq!(form.largest_network(), 35_146);
    let [list, sheet] = [LIST_LEAD, SHEET_LEAD].map(|lead| form.largest_entries(lead));
    assert_eq!((list, sheet), (5_639, 6_151));
    assert_eq!((JUDGE.bound(), CUT.bound()), (Some(40_785), Some(41_298)));
    assert_eq!((TRAIL.bound(), JOIN.bound()), (Some(40_787), Some(70_292)));
}

/// A route is read as its first eight bytes and its last eight.
#[test]
fn a_route_has_nine_to_sixteen_bytes() {
    assert!(FORMS.iter().all(|form| (9..=16).contains(&form.route)));
}

#[test]
fn counts_at_the_bound_and_one_over() {
    for form in FORMS {
        let check = |nodes, edges, policies| {
            let record = dense(form, nodes, edges, policies).record();
            check_network(&record)
        };
        let largest = dense(form, form.most, 4_096, 64).record();
        assert_eq!(largest.len(), form.largest_network());
        assert_eq!(check(form.most, 4_096, 64), Ok(()));
        assert_eq!(check(form.most + 1, 4, 1), refused(3, 5));
        assert_eq!(check(form.most, 4_097, 64), refused(3, 5));
        assert_eq!(check(form.most, 4_096, 65), refused(3, 5));
        let ids = |count: usize| 0..count as u16;
        let list = |count| {
            let entries: Vec<_> = ids(count).map(|id| (id, None)).collect();
            read_entries::<LIST_LEAD>(&plan::list_record(form, &entries)).map(|_| ())
        };
        let sheet = |count| {
            let entries: Vec<_> = ids(count).map(|id| (id, 63, None)).collect();
            read_entries::<SHEET_LEAD>(&plan::sheet_record(form, &entries)).map(|_| ())
        };
        assert_eq!((list(form.most), sheet(form.most)), (Ok(()), Ok(())));
        assert_eq!(list(form.most + 1), refused(13, 5));
        assert_eq!(sheet(form.most + 1), refused(13, 5));
    }
}

#[test]
fn lowest_and_highest_id() {
    let mut plan = known::chain();
    let ids = [0, 300, 65_535];
    plan.edges.clear();
    (0..3).for_each(|row| plan.nodes[row].id = ids[row]);
    for (from, to) in [(0, 300), (300, 0), (300, 65_535), (65_535, 300)] {
        plan.wire(from, to, 0);
    }
    let routes = known::chain_list();
    let list: Vec<_> = (0..3).map(|row| (ids[row], routes[row].1)).collect();
    assert_eq!(shared::judge(&plan, &list), "pass 3");
    let sheet: Vec<_> = list.iter().map(|(id, r)| (*id, 63, *r)).collect();
    assert_eq!(shared::cut(&plan, 63, &sheet), plan.record());
}

#[test]
fn inputs_of_the_most_bytes_and_of_one_more() {
    let largest = FORMS.into_iter().max_by_key(|form| form.largest_network());
    let load = &bench::loads(largest.expect("a form"))[0];
    for (call, mut input, answer) in [
        (JUDGE, load.judge_input(), pass(load)),
        (CUT, load.whole_input(), load.network.clone()),
    ] {
        let bound = call.bound().expect("a program's bound");
        assert_eq!(input.len(), bound);
        assert!(call.answer(&input) == answer, "{}", call.name);
        input.push(0);
        assert_eq!(line(&call.answer(&input)), format!("refused 5 {bound}"));
    }
}

#[test]
fn over_size_comes_before_all_else() {
    for call in [JUDGE, CUT, TRAIL, JOIN] {
        let bound = call.bound().expect("a program's bound");
        let zeros = |length| line(&call.answer(&vec![0; length]));
        assert_eq!(zeros(bound), "refused 1 4");
        for length in [bound + 1, 1_000_000] {
            assert_eq!(zeros(length), format!("refused 5 {bound}"));
        }
    }
}

#[test]
fn next_to_no_input() {
    for (input, answer) in [
        (vec![], "refused 1 0"),
        (vec![0], "refused 1 1"),
        (vec![255; 3], "refused 1 3"),
        (vec![0; 4], "refused 1 4"),
        (vec![0; 9], "refused 1 4"),
        (vec![0, 0, 0, 5, 1, 0, 0, 0, 0], "refused 1 9"),
        (vec![255; 9], "refused 1 9"),
        (vec![255; 10], "refused 2 4"),
        (vec![0, 0, 0, 6, 1, 0, 0, 0, 0, 0], "refused 8 10"),
    ] {
        assert_eq!(line(&judge_bytes(&input)), answer);
        assert_eq!(line(&cut_bytes(&input)), answer);
        assert_eq!(line(&TRAIL.answer(&input)), answer);
        assert_eq!(line(&JOIN.answer(&input)), answer);
    }
}

#[test]
fn a_network_alone() {
    let network = known::chain().record();
    assert_eq!(line(&judge_bytes(&network)), "refused 11 0");
    assert_eq!(line(&cut_bytes(&network)), "refused 11 0");
    let one = [&network[..], &[1]].concat();
    assert_eq!(line(&judge_bytes(&one)), "refused 11 1");
    assert_eq!(
        line(&cut_bytes(&one)),
        "refused 11 0",
        "that byte is the fragment"
    );
}

#[test]
fn lengths_that_point_past_the_end() {
    let mut network = known::chain().record();
    let list = list_record(&known::chain_list());
    network[3] += list.len() as u8 + 1;
    assert_eq!(judge_records(&network, &list), "refused 4 0");
    let input = [&network[..], &list].concat();
    assert_eq!(split(&input), (&input[..], &[][..]));
    network[..4].fill(255);
    assert_eq!(judge_records(&network, &list), "refused 4 0");
    let cut_off = &known::chain().record()[..100];
    assert_eq!(line(&judge_bytes(cut_off)), "refused 1 100");
}

#[test]
fn bytes_between_the_records_are_the_second_ones() {
    let network = known::chain().record();
    let list = list_record(&known::chain_list());
    let input = [&network[..], &[0], &list].concat();
    assert_eq!(line(&judge_bytes(&input)), "refused 12 4");
    let longer = [&network[..], &list, &[0]].concat();
    assert_eq!(line(&judge_bytes(&longer)), "refused 15 40");
}

/// The judge's answer to a load, of which all boxes are own.
fn pass(load: &Load) -> Vec<u8> {
    format!("pass {}\n", load.boxes).into_bytes()
}

#[test]
fn the_timed_records_are_the_largest_and_pass() {
    let loads = bench::loads(VERSION_1);
    let sizes: Vec<_> = loads.iter().map(|load| (load.boxes, load.wires)).collect();
    assert_eq!(sizes[..3], [(512, 4_096), (512, 4_096), (320, 4_096)]);
    let trail = bench::longest_trail(VERSION_1);
    assert_eq!((trail.boxes, trail.wires), (512, 4_096));
    assert!(judge_bytes(&trail.judge_input()) == pass(&trail));
    assert_eq!(lines(&TRAIL.answer(&trail.trail_input())).len(), 512);
    let wires: Vec<_> = sizes[3..].iter().map(|(_, wires)| *wires).collect();
    assert_eq!(wires, [512, 1_024, 2_048, 4_096]);
    for load in loads {
        assert!(judge_bytes(&load.judge_input()) == pass(&load));
        let fragment = cut_bytes(&load.cut_input());
        assert_eq!(check_network(&fragment), Ok(()), "{}", load.name);
        assert_eq!(cut_bytes(&load.whole_input()), load.network);
        let joint = JOIN.answer(&load.join_input());
        assert_eq!(joint.len(), load.network.len(), "{}", load.name);
    }
}
