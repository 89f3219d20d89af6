//! The names of the threads that took steps of a pool whose journal is stored.

use crate::callers::{caller_number, name_of_this_thread};
use crate::manager::Manager;
use crate::shared::Shared;
use std::cell::Cell;
use std::mem;
use std::sync::atomic::{AtomicU64, Ordering};
use std::sync::{Mutex, MutexGuard, PoisonError};

/// The number of a caller in a journal, and the name of its thread.
#[derive(Clone, Debug, PartialEq, Eq)]
#[non_exhaustive]
pub struct CallerName {
    /// The number, as [`caller_number`](crate::caller_number) returns it.
    pub number: u32,
    /// The name, which may be any text.
    pub name: String,
}

/// How many names wait for a sink at most. A sink that fails for long loses the rest.
const MOST: usize = 1 << 16;

/// The number of the next journal.
static NEXT: AtomicU64 = AtomicU64::new(1);

thread_local! {
    /// The numbers of the journals in which this thread was noted last.
    static RECENT: Cell<[u64; 4]> = const { Cell::new([0; 4]) };
}

/// The callers of one pool.
pub(crate) struct CallerNames {
    /// The number of the journal in this process.
    journal: u64,
    noted: Mutex<Noted>,
}

#[derive(Default)]
struct Noted {
    /// A bit for each number of a caller that was noted.
    known: Vec<u64>,
    unstored: Vec<CallerName>,
}

impl Noted {
    /// Notes a number. Returns whether it is new, and there is memory to note it.
    fn is_new(&mut self, number: u32) -> bool {
        let (word, bit) = (number as usize / 64, 1_u64 << (number % 64));
        if word >= self.known.len() {
            let more = word + 1 - self.known.len();
            if self.known.try_reserve(more).is_err() {
                return false;
            }
            self.known.resize(word + 1, 0);
        }
        let is_new = self.known[word] & bit == 0;
        self.known[word] |= bit;
        is_new
    }
}

impl CallerNames {
    pub fn new() -> CallerNames {
        CallerNames {
            journal: NEXT.fetch_add(1, Ordering::Relaxed),
            noted: Mutex::default(),
        }
    }

    /// Returns the number of this thread, and notes its name if it has one. Call it without the pool's lock, before the thread's first step.
    #[inline]
    pub fn note(&self) -> u32 {
        let number = caller_number();
        if !RECENT.with(Cell::get).contains(&self.journal) {
            self.note_anew(number);
        }
        number
    }

    #[cold]
    fn note_anew(&self, number: u32) {
        let [first, second, third, _] = RECENT.with(Cell::get);
        RECENT.with(|recent| recent.set([self.journal, first, second, third]));
        let mut noted = self.noted();
        if noted.is_new(number) && noted.unstored.len() < MOST {
            let name = name_of_this_thread();
            if let (Some(name), Ok(())) = (name, noted.unstored.try_reserve(1)) {
                noted.unstored.push(CallerName { number, name });
            }
        }
    }

    fn noted(&self) -> MutexGuard<'_, Noted> {
        self.noted.lock().unwrap_or_else(PoisonError::into_inner)
    }

    /// Takes the names that are not stored, in the order in which the threads came.
    pub fn take_unstored(&self) -> Vec<CallerName> {
        mem::take(&mut self.noted().unstored)
    }

    /// Puts names back that were not stored. Those that came since are lost if there is no memory.
    pub fn put_back(&self, mut names: Vec<CallerName>) {
        let mut noted = self.noted();
        if names.try_reserve(noted.unstored.len()).is_ok() {
            names.append(&mut noted.unstored);
        }
        noted.unstored = names;
    }
}

impl<M: Manager> Shared<M> {
    /// Returns the number of this thread, and notes its name if the journal is stored. Call it without the lock.
    #[inline]
    pub fn caller(&self) -> u32 {
        match &self.outlet {
            Some(outlet) => outlet.callers.note(),
            None => caller_number(),
        }
    }
}

#[cfg(test)]
mod tests {
    use super::CallerNames;
    use std::thread;

    #[test]
    fn a_thread_is_noted_once_in_each_journal() {
        let journals: Vec<_> = (0..6).map(|_| CallerNames::new()).collect();
        let note_all = || {
            let numbers = journals.iter().map(CallerNames::note);
            numbers.collect::<Vec<_>>()
        };
        let named = |name: &str| thread::Builder::new().name(name.to_owned());
        let number = thread::scope(|scope| {
            let first =
                named("first").spawn_scoped(scope, || (0..3).flat_map(|_| note_all()).last());
            let first = first.unwrap().join().unwrap();
            scope.spawn(note_all).join().unwrap();
            named("other")
                .spawn_scoped(scope, note_all)
                .unwrap()
                .join()
                .unwrap();
            first.unwrap()
        });
        for journal in &journals {
            let mut taken = journal.take_unstored();
            let names: Vec<_> = taken.iter().map(|one| &one.name).collect();
            assert_eq!(names, ["first", "other"]);
            assert_eq!(taken[0].number, number);
            let last = taken.split_off(1);
            journal.put_back(last.clone());
            journal.put_back(taken.clone());
            assert_eq!(journal.take_unstored(), [taken, last].concat());
            assert!(journal.take_unstored().is_empty());
        }
    }
}
