//! Times check, judge, census, cut, join and trail of the proved library against the reference: the
//! same bytes, one process, the two by turns, so that what else the machine does falls on both.

mod library;

use reference::bench::{self, Load};
use reference::call::{CENSUS, CUT, JOIN, JUDGE, TRAIL};
use reference::form::VERSION_1;
use reference::record;
use std::hint::black_box;
use std::time::Instant;

/// The most that a call may take, in times of the reference's.
const BAR: f64 = 1.5;
const WARM: usize = 300;
const TURNS: usize = 2_000;

fn main() {
    println!(
        "nanoseconds a call, of {TURNS}: what a tenth of the calls stay within, and the median"
    );
    println!("                                   a tenth                       the median");
    println!(
        "load       boxes  wires  call     proved  reference  ratio   proved  reference  ratio"
    );
    let mut over = Vec::new();
    for load in bench::loads(VERSION_1) {
        time_load(&load, &mut over);
    }
    time_trail(&bench::longest_trail(VERSION_1), &mut over);
    match &over[..] {
        [] => println!("all within {BAR} times the reference on the largest records"),
        over => println!("over {BAR} times the reference: {}", over.join(", ")),
    }
}

type Proved = fn(&[u8], &mut [u8]) -> usize;

fn time_load(load: &Load, over: &mut Vec<String>) {
    let network = &load.network[..];
    assert_eq!(library::check(network), (0, 0));
    let taken = by_turns([
        &mut kept(|| library::check(black_box(network))),
        &mut kept(|| record::check_network(black_box(network))),
    ]);
    show(load, "check", taken, over);
    let mut out = vec![0; load.form.largest_network()];
    let (judge, cut, whole) = (load.judge_input(), load.cut_input(), load.whole_input());
    let join = load.join_input();
    for (name, input, proved, call) in [
        ("judge", &judge, library::judge as Proved, JUDGE),
        ("census", &judge, library::census, CENSUS),
        ("cut", &cut, library::cut, CUT),
        ("whole", &whole, library::cut, CUT),
        ("join", &join, library::join, JOIN),
    ] {
        let length = proved(input, &mut out);
        assert!(out[..length] == call.answer(input), "the answers differ");
        let taken = by_turns([
            &mut kept(|| proved(black_box(input), &mut out)),
            &mut kept(|| call.answer(black_box(input))),
        ]);
        show(load, name, taken, over);
    }
}

/// What the trail takes behind the check and the judging, which come before every trail: a call less
/// one of the judge on the same records, of each of the two.
fn time_trail(load: &Load, over: &mut Vec<String>) {
    let (judge, trail) = (load.judge_input(), load.trail_input());
    let mut out = vec![0; library::trail_room()];
    let length = library::trail(&trail, &mut out);
    assert!(out[..length] == TRAIL.answer(&trail), "the answers differ");
    let mut line = [0; 200];
    let [proved, judged, reference, by_reference] = by_turns([
        &mut kept(|| library::trail(black_box(&trail), &mut out)),
        &mut kept(|| library::judge(black_box(&judge), &mut line)),
        &mut kept(|| TRAIL.answer(black_box(&trail))),
        &mut kept(|| JUDGE.answer(black_box(&judge))),
    ]);
    show(load, "call", [proved, reference], over);
    let taken = [less(proved, judged), less(reference, by_reference)];
    show(load, "trail", taken, over);
}

fn less(call: Taken, judged: Taken) -> Taken {
    [0, 1].map(|which: usize| call[which].saturating_sub(judged[which]))
}

/// Prints what a call takes by the proved library and by the reference, and keeps its name where it
/// takes too long.
fn show(load: &Load, call: &str, [proved, reference]: [Taken; 2], over: &mut Vec<String>) {
    let (name, boxes, wires) = (&load.name, load.boxes, load.wires);
    print!("{name:<10} {boxes:>5} {wires:>6}  {call:<6}");
    for (proved, reference) in proved.into_iter().zip(reference) {
        let ratio = proved as f64 / reference as f64;
        print!(" {proved:>8} {reference:>10} {ratio:>6.2}");
        if largest(load) && ratio > BAR {
            over.push(format!("{name} {call}"));
        }
    }
    println!();
}

/// The bar is for the largest records; the others show how the cost grows.
fn largest(load: &Load) -> bool {
    !load.name.starts_with("wires")
}

/// What a tenth of the calls stay within, and the median. Other work on the machine can only make a
/// call longer, so the first says more of the code and the second more of the day.
type Taken = [u128; 2];

/// A call whose result counts as used.
fn kept<T>(mut call: impl FnMut() -> T) -> impl FnMut() {
    move || {
        black_box(call());
    }
}

/// Times calls that take turns.
fn by_turns<const N: usize>(mut calls: [&mut dyn FnMut(); N]) -> [Taken; N] {
    let mut measures = [const { Vec::new() }; N];
    for turn in 0..WARM + TURNS {
        for (call, all) in calls.iter_mut().zip(&mut measures) {
            let taken = time(call);
            if turn >= WARM {
                all.push(taken);
            }
        }
    }
    measures.map(|mut all| {
        all.sort_unstable();
        [all[all.len() / 10], all[all.len() / 2]]
    })
}

fn time(call: &mut dyn FnMut()) -> u128 {
    let start = Instant::now();
    call();
    start.elapsed().as_nanos()
}
