//! Fills 16 machines with 96 jobs as `bench` does, in plain Rust, to compare times: `baseline N` fills N racks in each way.
mod jobs;
mod plan;
mod search;

use jobs::Terms;
use search::{Rack, Way};
use std::time::Instant;

fn fill(rack: &mut Rack, jobs: &[Terms], way: Way) -> usize {
    rack.clear();
    jobs.iter().filter(|terms| rack.place(**terms, way).is_some()).count()
}

fn tell(times: u32, kind: &str, jobs: &[Terms], name: &str, way: Way) {
    let mut rack = Rack::new(16);
    let start = Instant::now();
    let mut placed = 0;
    for _ in 0..times {
        placed = fill(&mut rack, jobs, way);
    }
    let millis = start.elapsed().as_millis();
    println!("{times} racks of 16 machines filled{kind}, {placed} of 96 jobs placed in the last; {name}");
    println!("{millis} ms");
}

fn main() {
    let times = std::env::args().nth(1).and_then(|text| text.parse().ok()).unwrap_or(1);
    for (kind, jobs) in [("", jobs::alike()), (" with varied jobs", jobs::varied())] {
        tell(times, kind, &jobs, "the whole plan tested for each choice", Way::Whole);
        tell(times, kind, &jobs, "the machines tested that a choice touches", Way::Touched);
    }
}
