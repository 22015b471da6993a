//! Work on all cores, taken in order.
use std::{
    collections::BTreeMap,
    sync::{Condvar, Mutex, MutexGuard, PoisonError},
    thread,
};

/// So far the work may be ahead of what was taken: it bounds the results that wait.
const AHEAD: usize = 1000;

/// What the threads share.
struct State<T> {
    /// The next to be worked on.
    next: usize,
    taken: usize,
    /// Nothing more is wanted.
    stopped: bool,
    done: BTreeMap<usize, T>,
}

struct Shared<T> {
    state: Mutex<State<T>>,
    changed: Condvar,
}

/// Works on 0 to `total` - 1 in all threads, and hands the results to `take` in order, in the caller's; the first error ends it.
pub fn in_order<T: Send, E>(
    total: usize,
    work: impl Fn(usize) -> T + Sync,
    mut take: impl FnMut(usize, T) -> Result<(), E>,
) -> Result<(), E> {
    let threads = thread::available_parallelism().map_or(1, usize::from);
    let shared = Shared::new();
    thread::scope(|scope| {
        for _ in 0..threads.min(total) {
            scope.spawn(|| shared.work(total, &work));
        }
        let stop = Stop(&shared);
        for at in 0..total {
            take(at, stop.0.result(at))?;
        }
        Ok(())
    })
}

/// Ends the work of all threads when it is dropped, after an error or a panic too.
struct Stop<'a, T>(&'a Shared<T>);

impl<T> Drop for Stop<'_, T> {
    fn drop(&mut self) {
        self.0.lock().stopped = true;
        self.0.changed.notify_all();
    }
}

impl<T> Shared<T> {
    fn new() -> Self {
        Shared {
            state: Mutex::new(State {
                next: 0,
                taken: 0,
                stopped: false,
                done: BTreeMap::new(),
            }),
            changed: Condvar::new(),
        }
    }

    fn lock(&self) -> MutexGuard<'_, State<T>> {
        self.state.lock().unwrap_or_else(PoisonError::into_inner)
    }

    /// Waits for as long as the state is so.
    fn wait(&self, so: impl Fn(&State<T>) -> bool) -> MutexGuard<'_, State<T>> {
        let waited = self.changed.wait_while(self.lock(), |state| so(state));
        waited.unwrap_or_else(PoisonError::into_inner)
    }

    /// What one thread does.
    fn work(&self, total: usize, work: &impl Fn(usize) -> T) {
        let panics = Panics(self);
        while let Some(at) = self.claim(total) {
            let result = work(at);
            self.lock().done.insert(at, result);
            self.changed.notify_all();
        }
        drop(panics);
    }

    /// The next place, if there is one.
    fn claim(&self, total: usize) -> Option<usize> {
        let far = |state: &State<T>| state.next < total && state.next >= state.taken + AHEAD;
        let mut state = self.wait(|state| !state.stopped && far(state));
        if state.stopped || state.next >= total {
            return None;
        }
        state.next += 1;
        Some(state.next - 1)
    }

    /// The result of a place, once it is there.
    fn result(&self, at: usize) -> T {
        let mut state = self.wait(|state| !state.stopped && !state.done.contains_key(&at));
        let result = state.done.remove(&at);
        state.taken = at + 1;
        drop(state);
        self.changed.notify_all();
        result.expect("a thread ended early")
    }
}

/// Stops all where a thread's work panics, so that nobody waits for its result.
struct Panics<'a, T>(&'a Shared<T>);

impl<T> Drop for Panics<'_, T> {
    fn drop(&mut self) {
        if thread::panicking() {
            drop(Stop(self.0));
        }
    }
}

#[cfg(test)]
mod tests {
    use super::*;
    use std::{panic, time::Duration};

    #[test]
    fn results_come_in_order() {
        let work = |at: usize| {
            // Some take longer, so that later ones are done first.
            thread::sleep(Duration::from_micros(if at % 7 == 0 { 300 } else { 0 }));
            at * at
        };
        let mut seen = Vec::new();
        let ended: Result<(), ()> = in_order(3 * AHEAD, work, |at, square| {
            seen.push((at, square));
            Ok(())
        });
        assert_eq!(ended, Ok(()));
        let all: Vec<_> = (0..3 * AHEAD).map(|at| (at, at * at)).collect();
        assert_eq!(seen, all);
    }

    #[test]
    fn an_error_ends_it() {
        let ended = in_order(
            100_000,
            |at| at,
            |at, _| if at == 5 { Err(at) } else { Ok(()) },
        );
        assert_eq!(ended, Err(5));
        assert_eq!(in_order(0, |at| at, |at, _| Err(at)), Ok(()));
    }

    #[test]
    fn a_panic_is_not_waited_for() {
        let work = |at: usize| assert_ne!(at, 40, "on purpose");
        let ran = panic::catch_unwind(|| in_order(50, work, |_, ()| Ok::<(), ()>(())));
        assert!(ran.is_err());
    }
}
