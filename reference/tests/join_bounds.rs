//! Joins at their bounds: 24 by its counts, 20 by the room, and the order of both.

mod shared;

use reference::cases::joined::bare;
use reference::form::{FORMS, MOST_EDGES, VERSION_1};
use reference::join::join;
use reference::known;
use reference::record::check_network;
use reference::refusal::Refusal;
use reference::route::Policy;
use shared::{joined, line};

#[test]
fn number_24_nodes() {
    for form in FORMS {
        let most = form.most as u16;
        let two = |one, other, edges| {
            joined(&[
                bare(form, 0, one, edges, &[]),
                bare(form, one, other, edges, &[]),
            ])
        };
        assert_eq!(check_network(&two(most - 1, 1, 0)), Ok(()));
        assert_eq!(check_network(&two(1, most - 1, 0)), Ok(()));
        let over = format!("refused 24 {}", form.most + 1);
        assert_eq!(line(&two(most, 1, 0)), over);
        assert_eq!(line(&two(1, most, 0)), over);
        assert_eq!(
            line(&two(most / 2, most / 2 + 1, 4_000)),
            over,
            "before edges"
        );
        let double = format!("refused 24 {}", 2 * form.most);
        assert_eq!(line(&two(most, most, 0)), double);
    }
}

/// A box that both networks have counts once.
#[test]
fn number_24_counts_the_joint_network() {
    for form in FORMS {
        let most = form.most as u16;
        let shared = [60_000, 60_001, 60_002];
        let first = bare(form, 0, 10, 3, &shared);
        let second = |boxes| bare(form, 10, boxes, 3, &shared);
        let whole = joined(&[first.clone(), second(most - 13)]);
        assert_eq!(check_network(&whole), Ok(()));
        assert_eq!(whole.len(), form.network(1, form.most, 6));
        let over = line(&joined(&[first, second(most - 12)]));
        assert_eq!(over, format!("refused 24 {}", form.most + 1));
    }
}

#[test]
fn number_24_edges() {
    let two = |one, other| {
        let first = bare(VERSION_1, 0, 80, one, &[]);
        joined(&[first, bare(VERSION_1, 80, 80, other, &[])])
    };
    let half = MOST_EDGES / 2;
    assert_eq!(check_network(&two(half, half)), Ok(()));
    assert_eq!(line(&two(half + 1, half)), "refused 24 4097");
    assert_eq!(line(&two(half, half + 1)), "refused 24 4097");
    assert_eq!(line(&two(1, MOST_EDGES)), "refused 24 4097");
}

#[test]
fn number_23_comes_before_24() {
    let first = bare(VERSION_1, 0, 300, 0, &[]);
    let mut second = bare(VERSION_1, 300, 300, 0, &[]);
    second.policies.push(Policy::adding(1));
    assert_eq!(line(&joined(&[first, second])), "refused 23 0");
}

#[test]
fn number_20_buffer() {
    let [first, second] = known::chain_parts().map(|part| part.record());
    for length in 0..124 {
        let mut out = vec![7; length];
        let refusal = Refusal {
            number: 20,
            place: 124,
        };
        assert_eq!(join(&first, &second, &mut out), Err(refusal));
        assert_eq!(out, vec![7; length]);
    }
    for length in [124, 125, 200] {
        let mut out = vec![7; length];
        assert_eq!(join(&first, &second, &mut out), Ok(124));
        assert_eq!(out[..124], joined(&known::chain_parts()));
        assert_eq!(out[124..], vec![7; length - 124]);
    }
}

#[test]
fn number_24_comes_before_20() {
    let first = bare(VERSION_1, 0, 512, 0, &[]).record();
    let second = bare(VERSION_1, 512, 1, 0, &[]).record();
    let refusal = Refusal {
        number: 24,
        place: 513,
    };
    assert_eq!(join(&first, &second, &mut []), Err(refusal));
    assert_eq!(join(&second, &first, &mut []), Err(refusal));
}
