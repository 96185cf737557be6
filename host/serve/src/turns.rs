//! Turns that are shared or alone. They begin in the order in which they were asked for, so that nobody waits for
//! ever: one that is alone waits for those before it, and those after it wait for it.

use std::sync::{Condvar, Mutex, MutexGuard, PoisonError};

/// Those who wait, and those whose turn it is.
#[derive(Default)]
pub struct Turns {
    queue: Mutex<Queue>,
    changed: Condvar,
}

#[derive(Default)]
struct Queue {
    /// The number of turns that were asked for.
    asked: u64,
    /// The number of turns that let the next begin: of shared ones when they have begun, of others when they have
    /// ended.
    passed: u64,
    /// How many turns have begun and not ended.
    open: usize,
}

/// A turn, which ends when this is dropped.
pub struct Turn<'t> {
    turns: &'t Turns,
    is_alone: bool,
}

impl Turns {
    /// A turn beside other shared ones.
    pub fn shared(&self) -> Turn<'_> {
        self.begin(false)
    }

    /// A turn with no other beside it.
    pub fn alone(&self) -> Turn<'_> {
        self.begin(true)
    }

    fn begin(&self, is_alone: bool) -> Turn<'_> {
        let mut queue = self.lock();
        let own = queue.asked;
        queue.asked += 1;
        let waits = |queue: &mut Queue| queue.passed != own || is_alone && queue.open > 0;
        let mut queue =
            self.changed.wait_while(queue, waits).unwrap_or_else(PoisonError::into_inner);
        queue.open += 1;
        if !is_alone {
            queue.passed += 1;
            self.changed.notify_all();
        }
        Turn { turns: self, is_alone }
    }

    /// Whether one who has asked for a turn waits for it.
    #[cfg(test)]
    pub fn has_waiting(&self) -> bool {
        let queue = self.lock();
        queue.asked > queue.passed
    }

    /// Nothing fails while it has this lock.
    fn lock(&self) -> MutexGuard<'_, Queue> {
        self.queue.lock().unwrap_or_else(PoisonError::into_inner)
    }
}

impl Drop for Turn<'_> {
    fn drop(&mut self) {
        let mut queue = self.turns.lock();
        queue.open -= 1;
        queue.passed += u64::from(self.is_alone);
        self.turns.changed.notify_all();
    }
}

#[cfg(test)]
mod tests {
    use std::sync::mpsc::{channel, Receiver, Sender};
    use std::thread;
    use std::time::Duration;

    use crate::turns::*;

    /// Longer than a turn takes to begin that does not wait.
    const WHILE: Duration = Duration::from_millis(200);

    /// Asks for a turn in a thread of its own, sends when it has begun, and ends it when it is told so.
    fn ask<'s>(
        scope: &'s thread::Scope<'s, '_>,
        turns: &'s Turns,
        is_alone: bool,
    ) -> (Receiver<()>, Sender<()>) {
        let ((begun, begins), (end, ends)) = (channel(), channel::<()>());
        let asked = turns.lock().asked;
        scope.spawn(move || {
            let turn = turns.begin(is_alone);
            begun.send(()).expect("a test");
            // It also ends where the test fails.
            let _ = ends.recv();
            drop(turn);
        });
        while turns.lock().asked == asked {
            thread::yield_now();
        }
        (begins, end)
    }

    fn has_begun(turn: &(Receiver<()>, Sender<()>)) -> bool {
        turn.0.recv_timeout(WHILE).is_ok()
    }

    #[test]
    fn turns_in_order() {
        let turns = Turns::default();
        thread::scope(|scope| {
            let [first, second] = [false, false].map(|is_alone| ask(scope, &turns, is_alone));
            assert!(has_begun(&first) && has_begun(&second));
            let alone = ask(scope, &turns, true);
            let after = ask(scope, &turns, false);
            drop(first.1);
            assert!(!has_begun(&alone) && !has_begun(&after));
            drop(second.1);
            assert!(has_begun(&alone) && !has_begun(&after));
            drop(alone.1);
            assert!(has_begun(&after));
            let last = ask(scope, &turns, true);
            assert!(!has_begun(&last));
            drop(after.1);
            assert!(has_begun(&last));
        });
    }

    /// A thread that fails ends its turn.
    #[test]
    fn a_turn_of_a_thread_that_fails() {
        let turns = Turns::default();
        let failed = thread::scope(|scope| {
            let fails = scope.spawn(|| {
                let _turn = turns.alone();
                panic!("as it is to");
            });
            fails.join().is_err()
        });
        assert!(failed);
        drop(turns.alone());
    }
}
