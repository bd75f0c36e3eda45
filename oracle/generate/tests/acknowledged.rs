//! Demand 3 tried on the Rust itself: in runs by the rules of paper 01, every acknowledged write
//! stands in the log of each node that the map lists in sync, after every event.

use generate::dome::{Dome, TAME};

#[test]
fn no_acknowledged_write_is_missing() {
    let mut acknowledged = 0;
    for seed in 0..200 {
        let mut dome = Dome::new(seed, TAME);
        for event in 0..400 {
            dome.event();
            assert!(dome.missing().is_none(), "seed {seed}, event {event}");
        }
        acknowledged += dome.acknowledged.len();
    }
    assert!(acknowledged > 1000);
}
