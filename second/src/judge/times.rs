//! Earliest times and negative cycles: refusal 10.

use super::differences::Difference;
use std::collections::{BTreeMap, BTreeSet};

/// The earliest times, or the atoms of a negative cycle.
#[derive(Clone, Debug, PartialEq, Eq)]
pub enum Schedule {
    Times(BTreeMap<u32, i64>),
    Cycle(Vec<u32>),
}

// The names: every term that stands as x or y of a difference.
pub fn names(differences: &[Difference]) -> BTreeSet<u32> {
    differences.iter().flat_map(|d| [d.x, d.y]).collect()
}

// The times as they rise, with the difference that last raised each name.
struct Rising {
    times: BTreeMap<u32, i64>,
    raised_by: BTreeMap<u32, Difference>,
}

impl Rising {
    // One round through the differences: raises each y to at least x - bound.
    fn round(&mut self, force: &[Difference]) -> Option<u32> {
        let mut last = None;
        for d in force {
            let least = self.times[&d.x] - d.bound;
            if self.times[&d.y] < least {
                self.times.insert(d.y, least);
                self.raised_by.insert(d.y, *d);
                last = Some(d.y);
            }
        }
        last
    }

    // The difference that raised a name; only asked where there is one.
    fn raiser(&self, name: u32) -> Difference {
        self.raised_by[&name]
    }

    // The cycle behind a name still raised after as many rounds as there are names.
    fn cycle(&self, name: u32) -> Vec<u32> {
        let on_cycle = self.times.keys().fold(name, |at, _| self.raiser(at).x);
        let mut atoms = vec![self.raiser(on_cycle).atom];
        let mut at = self.raiser(on_cycle).x;
        while at != on_cycle {
            atoms.push(self.raiser(at).atom);
            at = self.raiser(at).x;
        }
        atoms.reverse();
        from_smallest(atoms)
    }
}

// The same cycle, begun with its smallest atom.
fn from_smallest(mut atoms: Vec<u32>) -> Vec<u32> {
    let least = atoms.iter().enumerate().min_by_key(|(_, a)| **a).map_or(0, |(i, _)| i);
    atoms.rotate_left(least);
    atoms
}

// The schedule for the differences in force, over all names.
pub fn schedule(differences: &[Difference], x: &BTreeSet<u32>) -> Schedule {
    let force: Vec<Difference> = differences.iter().filter(|d| x.contains(&d.atom)).copied().collect();
    let times = names(differences).into_iter().map(|n| (n, 0)).collect();
    let mut rising = Rising { times, raised_by: BTreeMap::new() };
    let rounds = rising.times.len();
    let mut raised = None;
    for _ in 0..rounds {
        raised = rising.round(&force);
        if raised.is_none() {
            break;
        }
    }
    match raised {
        Some(name) => Schedule::Cycle(rising.cycle(name)),
        None => Schedule::Times(rising.times),
    }
}
