//! A lock that nobody contends for, and a notification that never comes.

use std::cell::Cell;
use std::future::Pending;
use std::panic;
use std::sync::MutexGuard;

/// Thrown where `notified` was told to end its caller.
pub struct Ended;

thread_local! {
    static END: Cell<bool> = const { Cell::new(false) };
}

/// Whether the next `notified` unwinds instead of answering.
pub fn end_at_notified(end: bool) {
    END.set(end);
}

#[derive(Default)]
pub struct Notify;

impl Notify {
    pub fn new() -> Self {
        Notify
    }

    pub fn notify_waiters(&self) {}

    pub fn notified(&self) -> Pending<()> {
        if END.get() {
            panic::resume_unwind(Box::new(Ended));
        }
        std::future::pending()
    }
}

pub struct Mutex<T>(std::sync::Mutex<T>);

impl<T> Mutex<T> {
    pub fn new(value: T) -> Self {
        Mutex(std::sync::Mutex::new(value))
    }

    pub async fn lock(&self) -> MutexGuard<'_, T> {
        self.0.try_lock().expect("one task at a time")
    }
}
