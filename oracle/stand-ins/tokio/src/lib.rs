//! Stand-in for tokio: nothing runs by itself. `spawn` only stores a task, whoever drives the
//! sources polls it by hand, and no timer ever fires.

use std::cell::RefCell;
use std::future::Future;
use std::pin::Pin;
use std::task::{Context, Poll, Waker};

pub mod sync;
pub mod time;

/// A stored task.
pub type Task = Pin<Box<dyn Future<Output = ()>>>;

thread_local! {
    static SPAWNED: RefCell<Vec<Task>> = RefCell::default();
}

/// Stores `task`.
pub fn spawn(task: impl Future<Output = ()> + 'static) {
    SPAWNED.with_borrow_mut(|all| all.push(Box::pin(task)));
}

/// Takes the tasks stored since the last call, oldest first.
pub fn spawned() -> Vec<Task> {
    SPAWNED.take()
}

/// Polls once.
pub fn poll<F: Future + ?Sized>(task: Pin<&mut F>) -> Poll<F::Output> {
    task.poll(&mut Context::from_waker(Waker::noop()))
}
