//! The two lists of 96 jobs that `bench` fills a rack with.

#[derive(Clone, Copy)]
pub struct Terms {
    pub number: u32,
    pub period: u32,
    pub deadline: u32,
    pub run: u32,
    pub standby: u32,
    pub lateness: u32,
}

/// Job i: about a tenth of a machine, with some lateness.
fn alike_job(i: u32) -> Terms {
    let number = i % 96 + 1;
    let period = 1000 + 10 * (i % 7);
    Terms {
        number,
        period,
        deadline: period - number,
        run: 90 + i % 31,
        standby: 80 + i % 17,
        lateness: i % 5,
    }
}

pub fn alike() -> Vec<Terms> {
    (0..96).map(alike_job).collect()
}

/// Job i from a fixed linear congruential sequence: a period to 1000 ticks, a run to an eighth of it, any deadline
/// and lateness.
fn varied_job(i: u32, draw: &mut impl FnMut() -> u32) -> Terms {
    let period = 10 + draw() / 65536 % 991;
    let run = 1 + draw() / 65536 % (period / 8);
    let deadline = run + draw() / 65536 % (period - run + 1);
    Terms {
        number: i + 1,
        period,
        deadline,
        run,
        standby: run,
        lateness: draw() / 65536 % (deadline - run + 1),
    }
}

pub fn varied() -> Vec<Terms> {
    let mut last = 1u32;
    let mut draw = || {
        last = last.wrapping_mul(1664525).wrapping_add(1013904223);
        last
    };
    (0..96).map(|i| varied_job(i, &mut draw)).collect()
}
