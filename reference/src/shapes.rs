//! Shapes: which box has a wire to which, before ids, policies and routes are given out.

use crate::random::Random;
use std::collections::BTreeSet;

/// A number of boxes and wires among them, each `(to, from)`.
#[derive(Clone, Debug, Default)]
pub struct Shape {
    pub boxes: usize,
    pub wires: BTreeSet<(usize, usize)>,
}

impl Shape {
    pub fn bare(boxes: usize) -> Shape {
        Shape {
            boxes,
            wires: BTreeSet::new(),
        }
    }

    /// Wires both ways between two boxes.
    pub fn link(&mut self, one: usize, other: usize) {
        if one != other {
            self.wires.insert((one, other));
            self.wires.insert((other, one));
        }
    }

    /// Adds random wires until there are so many, or no more fit.
    pub fn fill(&mut self, wires: usize, random: &mut Random) {
        let most = self.boxes * (self.boxes.max(1) - 1);
        while self.wires.len() < wires.min(most) {
            let (to, from) = (random.below(self.boxes), random.below(self.boxes));
            if to != from {
                self.wires.insert((to, from));
            }
        }
    }

    /// Takes random wires away until no more than so many remain.
    pub fn thin(&mut self, wires: usize, random: &mut Random) {
        let mut all: Vec<_> = self.wires.iter().copied().collect();
        while all.len() > wires {
            all.swap_remove(random.below(all.len()));
        }
        self.wires = all.into_iter().collect();
    }
}

pub fn chain(boxes: usize) -> Shape {
    let mut shape = Shape::bare(boxes);
    for here in 1..boxes {
        shape.link(here - 1, here);
    }
    shape
}

pub fn ring(boxes: usize) -> Shape {
    let mut shape = chain(boxes);
    shape.link(0, boxes - 1);
    shape
}

/// A ring, filled up with links across it.
pub fn ring_with_chords(boxes: usize, wires: usize, random: &mut Random) -> Shape {
    let mut shape = ring(boxes);
    while shape.wires.len() + 1 < wires {
        shape.link(random.below(boxes), random.below(boxes));
    }
    shape
}

pub fn star(boxes: usize) -> Shape {
    let mut shape = Shape::bare(boxes);
    for here in 1..boxes {
        shape.link(0, here);
    }
    shape
}

pub fn tree(boxes: usize) -> Shape {
    let mut shape = Shape::bare(boxes);
    for here in 1..boxes {
        shape.link((here - 1) / 2, here);
    }
    shape
}

pub fn grid(across: usize, down: usize) -> Shape {
    let mut shape = Shape::bare(across * down);
    for here in 0..shape.boxes {
        if here % across > 0 {
            shape.link(here - 1, here);
        }
        if here >= across {
            shape.link(here - across, here);
        }
    }
    shape
}

pub fn complete(boxes: usize) -> Shape {
    let mut shape = Shape::bare(boxes);
    for here in 0..boxes {
        (0..here).for_each(|other| shape.link(other, here));
    }
    shape
}

/// Any wires at all.
pub fn scattered(boxes: usize, wires: usize, random: &mut Random) -> Shape {
    let mut shape = Shape::bare(boxes);
    shape.fill(wires, random);
    shape
}

/// A fat-tree of `k` pods: first the k * k / 4 boxes of the spine, then each pod's k / 2 upper
/// and k / 2 lower boxes. Every lower box has links to its pod's upper ones, and the upper box
/// in place j to the j-th k / 2 of the spine.
pub fn fat_tree(k: usize) -> Shape {
    let half = k / 2;
    let mut shape = Shape::bare(half * half + k * k);
    for pod in 0..k {
        let upper = half * half + pod * k;
        for j in 0..half {
            (0..half).for_each(|i| shape.link(upper + j, upper + half + i));
            (0..half).for_each(|i| shape.link(j * half + i, upper + j));
        }
    }
    shape
}

/// The fragment of each box of a fat-tree: its pod's number, and `k` for the spine.
pub fn pods(k: usize) -> Vec<u8> {
    let spine = k * k / 4;
    let number = |here| if here < spine { k } else { (here - spine) / k };
    (0..spine + k * k).map(|here| number(here) as u8).collect()
}
