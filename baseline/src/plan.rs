//! Placements, quiet and loss sets, and figures, by deadline and then by number.
use crate::jobs::Terms;

#[derive(Clone, Copy, PartialEq)]
pub enum Status {
    Passive,
    Active,
}

#[derive(Clone, Copy)]
pub struct Placement {
    pub terms: Terms,
    pub primary: u8,
    pub standby: u8,
    pub status: Status,
}

/// A copy of a job in a set.
#[derive(Clone, Copy)]
pub struct JobCopy {
    terms: Terms,
    run: u32,
    lateness: u32,
}

fn goes_before(a: &Terms, b: &Terms) -> bool {
    (a.deadline, a.number) < (b.deadline, b.number)
}

/// What is asked of a window of x ticks, unless that is more than the limit.
fn demand_within(set: &[JobCopy], own: &JobCopy, x: u64, limit: u64) -> Option<u64> {
    let mut total = u64::from(own.run);
    for copy in set {
        if goes_before(&copy.terms, &own.terms) {
            let period = u64::from(copy.terms.period);
            total += u64::from(copy.run) * ((x + u64::from(copy.lateness) + period - 1) / period);
            if total > limit {
                return None;
            }
        }
    }
    Some(total)
}

/// The copy's figure in the set: its least window and its lateness, if that is within the deadline.
pub fn figure(set: &[JobCopy], own: &JobCopy) -> Option<u32> {
    let limit = u64::from(own.terms.deadline.checked_sub(own.lateness)?);
    let mut x = u64::from(own.run);
    while x <= limit {
        let next = demand_within(set, own, x, limit)?;
        if next == x {
            return Some(x as u32 + own.lateness);
        }
        x = next;
    }
    None
}

pub fn primary_copy(p: &Placement) -> JobCopy {
    JobCopy {
        terms: p.terms,
        run: p.terms.run,
        lateness: p.terms.lateness,
    }
}

pub fn standby_copy(p: &Placement, late: u32) -> JobCopy {
    let lateness = match p.status {
        Status::Active => p.terms.lateness,
        Status::Passive => late,
    };
    JobCopy {
        terms: p.terms,
        run: p.terms.standby,
        lateness,
    }
}

pub fn quiet_set(plan: &[Placement], g: u8, set: &mut Vec<JobCopy>) {
    set.clear();
    for p in plan {
        if p.primary == g {
            set.push(primary_copy(p));
        } else if p.standby == g && p.status == Status::Active {
            set.push(standby_copy(p, 0));
        }
    }
}

pub fn loss_set(plan: &[Placement], lates: &[u32], g: u8, f: u8, set: &mut Vec<JobCopy>) {
    set.clear();
    for (p, &late) in plan.iter().zip(lates) {
        if p.primary == g {
            set.push(primary_copy(p));
        } else if p.standby == g && (p.status == Status::Active || p.primary == f) {
            set.push(standby_copy(p, late));
        }
    }
}
