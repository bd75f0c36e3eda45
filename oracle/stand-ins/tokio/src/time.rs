//! Timers that never fire. The clock here stands still: a proposal has all the time it wants.

use std::future::{Future, pending};
use std::ops::Add;
use std::time::Duration;

/// A limit was passed: never built.
pub struct Elapsed;

/// Waits for `call` alone.
pub async fn timeout<T>(_: Duration, call: impl Future<Output = T>) -> Result<T, Elapsed> {
    Ok(call.await)
}

/// Does not end.
pub async fn sleep(_: Duration) {
    pending().await
}

pub enum MissedTickBehavior {
    Delay,
}

/// Ticks once.
pub struct Interval {
    ticked: bool,
}

pub fn interval(_: Duration) -> Interval {
    Interval { ticked: false }
}

impl Interval {
    pub fn set_missed_tick_behavior(&mut self, _: MissedTickBehavior) {}

    pub async fn tick(&mut self) {
        if self.ticked {
            pending::<()>().await;
        }
        self.ticked = true;
    }
}

#[derive(Clone, Copy, PartialEq, PartialOrd)]
pub struct Instant(Duration);

impl Instant {
    pub fn now() -> Self {
        Instant(Duration::ZERO)
    }
}

impl Add<Duration> for Instant {
    type Output = Instant;

    fn add(self, span: Duration) -> Instant {
        Instant(self.0 + span)
    }
}
