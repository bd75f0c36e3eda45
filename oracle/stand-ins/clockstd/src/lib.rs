//! The standard library, but with a clock that is an input. A crate that says
//! `extern crate clockstd as std;` reads this clock wherever its files name `std::time`.

pub use std::*;

pub mod time {
    //! Both clocks of the standard library, in microseconds, as last set.

    use std::cell::Cell;
    use std::ops::{Add, Sub};
    pub use std::time::Duration;

    thread_local! {
        static MONOTONIC: Cell<u64> = const { Cell::new(0) };
        static WALL: Cell<u64> = const { Cell::new(0) };
    }

    /// Sets what `Instant::now` reads.
    pub fn set_now(micros: u64) {
        MONOTONIC.set(micros);
    }

    /// Sets what `SystemTime::now` reads.
    pub fn set_wall(micros: u64) {
        WALL.set(micros);
    }

    /// A reading of the monotonic clock.
    #[derive(Debug, Clone, Copy, PartialEq, Eq, PartialOrd, Ord)]
    pub struct Instant(Duration);

    impl Instant {
        pub fn now() -> Self {
            Instant::at(MONOTONIC.get())
        }

        /// The reading of `micros`.
        pub fn at(micros: u64) -> Self {
            Instant(Duration::from_micros(micros))
        }

        /// The reading as a number.
        pub fn micros(self) -> u128 {
            self.0.as_micros()
        }

        /// Zero where `earlier` is later, as in the standard library.
        pub fn duration_since(self, earlier: Instant) -> Duration {
            self.0.saturating_sub(earlier.0)
        }
    }

    impl Add<Duration> for Instant {
        type Output = Instant;

        fn add(self, span: Duration) -> Instant {
            Instant(self.0 + span)
        }
    }

    impl Sub for Instant {
        type Output = Duration;

        fn sub(self, earlier: Instant) -> Duration {
            self.duration_since(earlier)
        }
    }

    /// A reading of the wall clock.
    #[derive(Debug, Clone, Copy, PartialEq, Eq, PartialOrd, Ord)]
    pub struct SystemTime(Duration);

    /// The clock read less than the time asked about.
    #[derive(Debug)]
    pub struct Earlier;

    pub const UNIX_EPOCH: SystemTime = SystemTime(Duration::ZERO);

    impl SystemTime {
        pub fn now() -> Self {
            SystemTime(Duration::from_micros(WALL.get()))
        }

        /// Never fails from the Unix epoch, below which this clock does not go.
        pub fn duration_since(self, earlier: SystemTime) -> Result<Duration, Earlier> {
            self.0.checked_sub(earlier.0).ok_or(Earlier)
        }
    }
}
