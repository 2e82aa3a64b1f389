//! First fit, with the whole plan tested for each choice, or only the machines that the choice touches.
use crate::jobs::Terms;
use crate::plan::{figure, loss_set, primary_copy, quiet_set, standby_copy, JobCopy, Placement, Status};

#[derive(Clone, Copy, PartialEq)]
pub enum Way {
    Whole,
    Touched,
}

#[derive(Default)]
struct Space {
    set: Vec<JobCopy>,
    lates: Vec<u32>,
}

/// Whether every copy on g has its figures, whichever other machine stops.
fn machine_fits(plan: &[Placement], machines: u8, g: u8, space: &mut Space) -> bool {
    for f in (0..machines).filter(|&f| f != g) {
        loss_set(plan, &space.lates, g, f, &mut space.set);
        for (p, &late) in plan.iter().zip(&space.lates) {
            if p.primary == g && figure(&space.set, &primary_copy(p)).is_none() {
                return false;
            }
            if p.standby == g && p.primary == f && figure(&space.set, &standby_copy(p, late)).is_none() {
                return false;
            }
        }
    }
    true
}

/// Whether the plan passes.
fn whole(plan: &[Placement], machines: u8, space: &mut Space) -> bool {
    space.lates.clear();
    for p in plan {
        quiet_set(plan, p.primary, &mut space.set);
        match figure(&space.set, &primary_copy(p)) {
            None => return false,
            Some(late) => space.lates.push(late),
        }
    }
    (0..machines).all(|g| machine_fits(plan, machines, g, space))
}

/// Whether the plan passes, given that it did without the job at place `at`, with the quiet figures `known`.
fn touched(plan: &[Placement], machines: u8, at: usize, known: &[u32], space: &mut Space) -> bool {
    let x = plan[at];
    let changed = |g: u8| g == x.primary || (g == x.standby && x.status == Status::Active);
    space.lates.clear();
    for (i, p) in plan.iter().enumerate() {
        if changed(p.primary) {
            quiet_set(plan, p.primary, &mut space.set);
            match figure(&space.set, &primary_copy(p)) {
                None => return false,
                Some(late) => space.lates.push(late),
            }
        } else {
            space.lates.push(if i < at { known[i] } else { known[i - 1] });
        }
    }
    let mut hit = [false; 16];
    hit[usize::from(x.primary)] = true;
    hit[usize::from(x.standby)] = true;
    for p in plan {
        if p.status == Status::Passive && changed(p.primary) {
            hit[usize::from(p.standby)] = true;
        }
    }
    (0..machines).all(|g| !hit[usize::from(g)] || machine_fits(plan, machines, g, space))
}

pub struct Rack {
    machines: u8,
    plan: Vec<Placement>,
    space: Space,
    known: Vec<u32>,
}

impl Rack {
    pub fn new(machines: u8) -> Rack {
        Rack {
            machines,
            plan: Vec::with_capacity(96),
            space: Space::default(),
            known: Vec::with_capacity(96),
        }
    }

    pub fn clear(&mut self) {
        self.plan.clear();
    }

    /// Whether the plan passes with this choice, which then stays.
    fn try_choice(&mut self, way: Way, at: usize, choice: Placement) -> bool {
        self.plan.insert(at, choice);
        let fits = match way {
            Way::Whole => whole(&self.plan, self.machines, &mut self.space),
            Way::Touched => touched(&self.plan, self.machines, at, &self.known, &mut self.space),
        };
        if !fits {
            self.plan.remove(at);
        }
        fits
    }

    /// The first choice that passes: each primary, passive with each standby, then active.
    pub fn place(&mut self, terms: Terms, way: Way) -> Option<(u8, u8, Status)> {
        let at = self.plan.partition_point(|p| p.terms.number < terms.number);
        if way == Way::Touched {
            if !whole(&self.plan, self.machines, &mut self.space) {
                return None;
            }
            self.known.clone_from(&self.space.lates);
        }
        for primary in 0..self.machines {
            for status in [Status::Passive, Status::Active] {
                for standby in (0..self.machines).filter(|&b| b != primary) {
                    let choice = Placement { terms, primary, standby, status };
                    if self.try_choice(way, at, choice) {
                        return Some((primary, standby, status));
                    }
                }
            }
        }
        None
    }
}
