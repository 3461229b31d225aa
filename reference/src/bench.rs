//! Timing the calls on the largest records, and writing those records down for others to time.

use crate::call::{CENSUS, CUT, JOIN, JUDGE, TRAIL};
use crate::census;
use crate::cut;
use crate::form::{Form, ENTRIES_HEAD, FRAGMENT, MOST_EDGES, MOST_POLICIES};
use crate::form::{SHEET_LEAD, VERSION_1};
use crate::join;
use crate::judge;
use crate::known;
use crate::plan::{list_record, sheet_record, Listed, Noted, Plan};
use crate::random::Random;
use crate::record;
use crate::route::TOP;
use crate::scene::{self, Dress, Ids, Scene, Style};
use crate::shapes::{self, Shape};
use crate::trail;
use std::hint::black_box;
use std::path::Path;
use std::time::Instant;

const SEED: u64 = 0x6c6e_6961_6e6f_746b;

/// One network with a list that passes, a sheet that cuts, and a box to ask for the trail of.
pub struct Load {
    pub form: Form,
    pub name: String,
    pub boxes: usize,
    pub wires: usize,
    pub network: Vec<u8>,
    pub list: Vec<u8>,
    pub sheet: Vec<u8>,
    pub named: u16,
}

/// The three largest networks of a form, and random ones of fewer wires to see the cost grow.
pub fn loads(form: Form) -> Vec<Load> {
    let mut random = Random::new(SEED);
    let r = &mut random;
    let (most, mut loads) = (form.most, Vec::new());
    let mut add = |name: &str, shape: &Shape, ids, numbers: &[u8], r: &mut Random| {
        loads.push(load(form, name, shape, ids, numbers, r));
    };
    let scattered = shapes::scattered(most, MOST_EDGES, r);
    add("random", &scattered, Ids::Sparse, &quarters(most), r);
    let ring = shapes::ring_with_chords(most, MOST_EDGES, r);
    add("ring", &ring, Ids::From(1), &quarters(most), r);
    let (tree, pods) = (shapes::fat_tree(16), shapes::pods(16));
    add("fattree", &tree, Ids::From(0), &pods, r);
    for wires in [512, 1_024, 2_048, 4_096] {
        let mut shape = scattered.clone();
        shape.thin(wires, r);
        let name = format!("wires{wires}");
        add(&name, &shape, Ids::Sparse, &quarters(most), r);
    }
    loads
}

/// Four fragments of neighbouring rows.
fn quarters(boxes: usize) -> Vec<u8> {
    (0..boxes).map(|row| (row * 4 / boxes) as u8).collect()
}

fn load(
    form: Form,
    name: &str,
    shape: &Shape,
    ids: Ids,
    numbers: &[u8],
    random: &mut Random,
) -> Load {
    let dress = Dress {
        form,
        top: TOP,
        ids,
        style: Style::Steady,
        policies: MOST_POLICIES,
        starts: 24,
        inputs: 0,
        wires: 0,
    };
    let mut scene: Scene = scene::dress(shape, &dress, random);
    assert!(scene.settled, "a steady plan settles");
    scene.ask(3, random);
    Load::of(name, &scene.plan, &scene.list(), numbers)
}

/// The trail of the most boxes, over the most wires.
pub fn longest_trail(form: Form) -> Load {
    let (plan, list) = known::longest_trail(form);
    Load::of("trail", &plan, &list, &quarters(form.most))
}

impl Load {
    /// A plan of own boxes with what they hold, which are the notes too, and with the fragment numbers
    /// of its rows.
    fn of(name: &str, plan: &Plan, list: &[Listed], numbers: &[u8]) -> Load {
        let form = plan.form;
        let rows = list.iter().zip(numbers);
        let notes: Vec<Noted> = rows
            .map(|(entry, number)| (entry.0, *number, entry.1))
            .collect();
        Load {
            form,
            name: name.to_string(),
            boxes: plan.nodes.len(),
            wires: plan.edges.len(),
            network: plan.record(),
            list: list_record(form, list),
            sheet: sheet_record(form, &notes),
            named: plan.nodes[0].id,
        }
    }

    /// The judge's input.
    pub fn judge_input(&self) -> Vec<u8> {
        [&self.network[..], &self.list].concat()
    }

    /// The trail's input.
    pub fn trail_input(&self) -> Vec<u8> {
        [&self.network[..], &self.named.to_be_bytes(), &self.list].concat()
    }

    /// The cutter's input, for fragment 0.
    pub fn cut_input(&self) -> Vec<u8> {
        [&self.network[..], &[0], &self.sheet].concat()
    }

    /// The cutter's input with all boxes in fragment 0.
    pub fn whole_input(&self) -> Vec<u8> {
        [&self.network[..], &[0], &self.whole_sheet()].concat()
    }

    /// The join's input: the two halves that the boxes make by turns, so that the ids of the one stand
    /// between those of the other.
    pub fn join_input(&self) -> Vec<u8> {
        self.halves().concat()
    }

    fn halves(&self) -> [Vec<u8>; 2] {
        let sheet = self.numbered(|row| (row % 2) as u8);
        [0, 1].map(|half: u8| CUT.answer(&[&self.network[..], &[half], &sheet].concat()))
    }

    fn whole_sheet(&self) -> Vec<u8> {
        self.numbered(|_| 0)
    }

    /// The sheet with other fragment numbers.
    fn numbered(&self, number: impl Fn(usize) -> u8) -> Vec<u8> {
        let mut sheet = self.sheet.clone();
        let entries = sheet[ENTRIES_HEAD..].chunks_exact_mut(self.form.entry(SHEET_LEAD));
        for (row, entry) in entries.enumerate() {
            entry[FRAGMENT] = number(row);
        }
        sheet
    }
}

/// Prints nanoseconds a call: the median and the lowest. `cut` cuts out fragment 0, `whole` has
/// all boxes in it; `join` joins the two halves. The programs are timed over bytes, from input to
/// output. A trail is short on most loads, so that of the longest one is timed on a load of its own.
pub fn run() {
    println!("load       boxes  wires  call          median   lowest");
    for load in loads(VERSION_1).iter().chain([&longest_trail(VERSION_1)]) {
        let (network, list, sheet) = (&load.network[..], &load.list[..], &load.sheet[..]);
        let whole = load.whole_sheet();
        let (judge_input, cut_input) = (load.judge_input(), load.cut_input());
        let (trail_input, id) = (load.trail_input(), load.named);
        let (join_input, [first, second]) = (load.join_input(), load.halves());
        let out = &mut vec![0; load.form.largest_network()];
        let show = |call: &str, (median, lowest): (u128, u128)| {
            let (name, boxes, wires) = (&load.name, load.boxes, load.wires);
            println!("{name:<10} {boxes:>5} {wires:>6}  {call:<12} {median:>7} {lowest:>8}");
        };
        show("check", time(|| record::check_network(black_box(network))));
        show(
            "judge",
            time(|| judge::judge(black_box(network), list, TOP)),
        );
        show(
            "census",
            time(|| census::census(black_box(network), list, TOP)),
        );
        show(
            "trail",
            time(|| trail::trail(black_box(network), list, id, TOP)),
        );
        show("cut", time(|| cut::cut(black_box(network), sheet, 0, out)));
        show(
            "whole",
            time(|| cut::cut(black_box(network), &whole, 0, out)),
        );
        show("join", time(|| join::join(black_box(&first), &second, out)));
        show(
            "judge_bytes",
            time(|| JUDGE.answer(black_box(&judge_input))),
        );
        show(
            "census_bytes",
            time(|| CENSUS.answer(black_box(&judge_input))),
        );
        show(
            "trail_bytes",
            time(|| TRAIL.answer(black_box(&trail_input))),
        );
        show("cut_bytes", time(|| CUT.answer(black_box(&cut_input))));
        show("join_bytes", time(|| JOIN.answer(black_box(&join_input))));
    }
}

/// The median and the lowest of 2,000 calls timed one by one, after 500 calls to warm up: a call
/// takes some tens of microseconds, far more than reading the clock.
fn time<T>(mut call: impl FnMut() -> T) -> (u128, u128) {
    for _ in 0..500 {
        black_box(call());
    }
    let mut measures: Vec<u128> = (0..2_000)
        .map(|_| {
            let start = Instant::now();
            black_box(call());
            start.elapsed().as_nanos()
        })
        .collect();
    measures.sort_unstable();
    (measures[measures.len() / 2], measures[0])
}

/// Writes every load's records and inputs into a directory.
pub fn write_inputs(directory: &Path) -> std::io::Result<()> {
    std::fs::create_dir_all(directory)?;
    for load in loads(VERSION_1).iter().chain([&longest_trail(VERSION_1)]) {
        let put = |ending: &str, bytes: &[u8]| {
            std::fs::write(directory.join(format!("{}.{ending}", load.name)), bytes)
        };
        put("network", &load.network)?;
        put("list", &load.list)?;
        put("sheet", &load.sheet)?;
        put("judge", &load.judge_input())?;
        put("trail", &load.trail_input())?;
        put("cut", &load.cut_input())?;
        put("whole", &load.whole_input())?;
        put("join", &load.join_input())?;
    }
    Ok(())
}
