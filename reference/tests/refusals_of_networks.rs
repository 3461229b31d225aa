//! The refusals 1 to 10, by networks made by hand, with their places.

mod shared;

use reference::known;
use reference::plan::{Node, Plan};
use reference::record::check_network as check;
use reference::route::Policy;
use shared::{over, refused, unknown_versions};

/// In the chain's record: one policy at 10, nodes at 23, 50 and 77, edges from 104 on.
const POLICY: usize = 10;
const NODES: [usize; 3] = [23, 50, 77];
const EDGES: [usize; 4] = [104, 109, 114, 119];

fn network() -> Vec<u8> {
    known::chain().record()
}

/// The chain's record with bytes written over it.
fn changed(offset: usize, bytes: &[u8]) -> Vec<u8> {
    over(network(), offset, bytes)
}

#[test]
fn number_1_too_short() {
    for length in 0..10 {
        assert_eq!(check(&network()[..length]), refused(1, length));
    }
    for length in 10..124 {
        assert_eq!(check(&network()[..length]), refused(1, length));
    }
    assert_eq!(check(&network()), Ok(()));
}

#[test]
fn number_2_version() {
    for version in unknown_versions() {
        assert_eq!(check(&changed(4, &[version])), refused(2, 4));
    }
    let short = &changed(4, &[0])[..9];
    assert_eq!(check(short), refused(1, 9), "under 10 bytes comes first");
}

#[test]
fn number_3_counts() {
    assert_eq!(check(&changed(5, &[2, 1])), refused(3, 5), "513 nodes");
    assert_eq!(check(&changed(7, &[16, 1])), refused(3, 5), "4,097 edges");
    assert_eq!(check(&changed(9, &[65])), refused(3, 5), "65 policies");
    let both = over(changed(9, &[65]), 4, &[0]);
    assert_eq!(check(&both), refused(2, 4), "the version comes first");
}

#[test]
fn number_4_length() {
    assert_eq!(check(&changed(3, &[119])), refused(4, 0));
    assert_eq!(check(&changed(3, &[121])), refused(4, 0));
    assert_eq!(check(&changed(0, &[255; 4])), refused(4, 0));
    assert_eq!(check(&changed(5, &[2, 0])), refused(4, 0), "512 nodes");
    let short = &changed(3, &[119])[..50];
    assert_eq!(check(short), refused(4, 0), "before under the total");
}

#[test]
fn number_5_bytes_after() {
    let more = [network(), vec![0]].concat();
    assert_eq!(check(&more), refused(5, 124));
    let ill = [changed(POLICY + 8, &[2]), vec![7; 9]].concat();
    assert_eq!(check(&ill), refused(5, 124), "before what is inside");
}

#[test]
fn number_6_policy() {
    assert_eq!(check(&changed(POLICY + 8, &[2])), refused(6, POLICY));
    assert_eq!(check(&changed(POLICY + 9, &[1, 0])), refused(6, POLICY));
    assert_eq!(check(&changed(POLICY + 9, &[0, 1])), refused(6, POLICY));
    assert_eq!(
        check(&changed(POLICY + 8, &[1, 0, 0])),
        Ok(()),
        "preference 0"
    );
    assert_eq!(check(&changed(POLICY + 11, &[0, 0])), refused(6, POLICY));
    assert_eq!(check(&changed(POLICY + 11, &[1, 0])), Ok(()), "adds 256");
    let preferring = changed(POLICY + 8, &[1, 0, 9, 0, 0]);
    assert_eq!(check(&preferring), refused(6, POLICY), "whatever the flag");
    let mut plan = known::chain();
    plan.policies.push(Policy::adding(1));
    let unused = over(plan.record(), POLICY + 13 + 8, &[9]);
    assert_eq!(check(&unused), refused(6, POLICY + 13), "used or not");
    let unused = over(plan.record(), POLICY + 13 + 11, &[0, 0]);
    assert_eq!(check(&unused), refused(6, POLICY + 13), "used or not");
}

#[test]
fn number_6_names_the_first_policy() {
    const FLAG: (usize, &[u8]) = (8, &[2]);
    const PREFERENCE: (usize, &[u8]) = (9, &[0, 1]);
    const ADDED: (usize, &[u8]) = (11, &[0, 0]);
    let mut plan = known::chain();
    plan.policies = vec![Policy::adding(1); 4];
    for first in [FLAG, PREFERENCE, ADDED] {
        for second in [FLAG, PREFERENCE, ADDED] {
            let place = |policy: usize| POLICY + 13 * policy;
            let ill = over(plan.record(), place(1) + first.0, first.1);
            let ill = over(ill, place(3) + second.0, second.1);
            assert_eq!(check(&ill), refused(6, place(1)));
        }
    }
    let ill = over(plan.record(), POLICY + ADDED.0, ADDED.1);
    let ill = over(ill, POLICY + 4 * 13 + 2, &[2]);
    assert_eq!(check(&ill), refused(6, POLICY), "before a node's fault");
}

#[test]
fn number_7_fields() {
    for node in NODES {
        let ill = |field, bytes: &[u8]| check(&changed(node + field, bytes));
        assert_eq!(ill(2, &[2]), refused(7, node), "kind");
        assert_eq!(ill(3, &[2]), refused(7, node), "present byte");
        assert_eq!(ill(3, &[0, 0, 0, 0, 0, 0, 0, 0, 1]), refused(7, node));
        assert_eq!(ill(3, &[0, 1, 0, 0, 0, 0, 0, 0, 0]), refused(7, node));
        assert_eq!(ill(12, &[2]), refused(7, node), "promise flag");
        assert_eq!(ill(13, &[1]), refused(7, node), "promised without flag");
        assert_eq!(ill(21, &[1]), refused(7, node), "promised without flag");
        assert_eq!(ill(12, &[1, 2]), refused(7, node), "promised route");
        assert_eq!(ill(12, &[1, 0, 9]), refused(7, node), "promised route");
        assert_eq!(ill(22, &[3]), refused(7, node), "demand");
        for demand in [0, 2] {
            for place in 1..5 {
                let mut asks = [demand, 0, 0, 0, 0];
                asks[place] = 1;
                assert_eq!(ill(22, &asks), refused(7, node), "ceiling or tags");
            }
        }
    }
}

#[test]
fn number_7_inputs_and_order() {
    let mut plan = known::chain();
    plan.nodes.push(Node::input(4, None));
    plan.wire(4, 3, 0);
    let input = NODES[2] + 27;
    let record = plan.record();
    assert_eq!(check(&record), Ok(()));
    assert_eq!(
        check(&over(record.clone(), input + 12, &[1])),
        refused(7, input)
    );
    for demand in [1, 2] {
        let asked = over(record.clone(), input + 22, &[demand]);
        assert_eq!(check(&asked), refused(7, input));
    }
    let (second, third) = (NODES[1], NODES[2]);
    assert_eq!(
        check(&changed(second, &[0, 1])),
        refused(7, second),
        "twice"
    );
    assert_eq!(
        check(&changed(second, &[0, 0])),
        refused(7, second),
        "lower"
    );
    assert_eq!(
        check(&changed(second, &[0, 3])),
        refused(7, third),
        "the later"
    );
    let two = over(changed(third + 2, &[9]), second + 2, &[9]);
    assert_eq!(check(&two), refused(7, second), "the lowest place");
    assert_eq!(check(&over(two, POLICY + 8, &[9])), refused(6, POLICY));
}

#[test]
fn number_8_no_own_node() {
    let empty = Plan::default();
    assert_eq!(check(&empty.record()), refused(8, 10));
    let mut plan = known::chain();
    plan.nodes.iter_mut().for_each(|node| {
        *node = Node::input(node.id, None);
    });
    assert_eq!(check(&plan.record()), refused(8, 23), "before the edges");
    plan.nodes.clear();
    assert_eq!(check(&plan.record()), refused(8, 23), "no nodes but edges");
}

#[test]
fn number_9_edge() {
    // The edges: 1 from 2, 2 from 1, 2 from 3, 3 from 2.
    let [first, second, third, last] = EDGES;
    for (offset, bytes, place, why) in [
        (last, &[0, 9][..], last, "to nobody"),
        (last + 2, &[0, 9], last, "from nobody"),
        (last + 2, &[0, 3], last, "to itself"),
        (first + 4, &[1], first, "no such policy"),
        (third + 2, &[0, 1], third, "twice"),
        (second + 2, &[0, 3], third, "the later one"),
        (third, &[0, 1], third, "the to end falls"),
    ] {
        assert_eq!(check(&changed(offset, bytes)), refused(9, place), "{why}");
    }
    let input = changed(NODES[0] + 2, &[1]);
    assert_eq!(check(&input), refused(9, first), "to an input");
    let two = over(changed(last + 4, &[1]), second + 4, &[1]);
    assert_eq!(check(&two), refused(9, second), "the lowest place");
    let mut plan = known::chain();
    plan.policies.clear();
    assert_eq!(check(&plan.record()), refused(9, first - 13), "no policies");
}

#[test]
fn number_10_idle_input() {
    let mut plan = known::chain();
    plan.nodes.push(Node::input(4, None));
    plan.nodes.push(Node::input(5, None));
    plan.nodes.push(Node::input(6, None));
    plan.wire(4, 1, 0);
    let fifth = NODES[2] + 2 * 27;
    assert_eq!(check(&plan.record()), refused(10, fifth));
    plan.wire(5, 1, 0);
    assert_eq!(check(&plan.record()), refused(10, fifth + 27));
    plan.wire(6, 1, 9);
    let edge = NODES[2] + 4 * 27 + 3 * 5;
    assert_eq!(check(&plan.record()), refused(9, edge), "9 before 10");
    plan.edges.last_mut().expect("an edge").policy = 0;
    assert_eq!(check(&plan.record()), Ok(()));
    let own = Plan {
        nodes: vec![Node::own(7, None)],
        ..Plan::default()
    };
    assert_eq!(check(&own.record()), Ok(()), "an own node may be idle");
}
