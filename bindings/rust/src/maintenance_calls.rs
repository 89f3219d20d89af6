//! Additions, fills, eviction runs, reclaims, clears and closes.

use crate::call::{End, Kind};
use crate::course::Course;
use crate::error::Error;
use crate::in_progress::InProgress;
use crate::manager::Manager;
use crate::panics::{caught, Panic};
use crate::proved_core::Space;
use crate::shared::{Shared, WaitLimit};
use std::thread;

/// What became of an addition.
#[derive(Clone, Copy, Debug, PartialEq, Eq, Hash)]
#[non_exhaustive]
pub enum Addition {
    /// The new object is idle.
    Idle,
    /// There is no free place, and no object was made.
    NoPlace,
    /// The pool was closed meanwhile, and the new object was destroyed.
    Destroyed,
}

/// The result of an eviction run.
#[derive(Clone, Copy, Debug, Default, PartialEq, Eq, Hash)]
#[non_exhaustive]
pub struct Eviction {
    /// The number of idle objects that it examined.
    pub examined: u64,
    /// The number of those that it destroyed.
    pub destroyed: u64,
}

/// The result of a maintenance.
#[derive(Clone, Copy, Debug, Default, PartialEq, Eq, Hash)]
#[non_exhaustive]
pub struct Maintenance {
    /// Its eviction run.
    pub eviction: Eviction,
    /// The number of abandoned objects that it reclaimed.
    pub reclaimed: u64,
    /// The number of new objects that it added.
    pub filled: u64,
}

impl<M: Manager> Shared<M> {
    /// That of a call that is for no lent object, and begins now.
    fn course(&self, kind: Kind) -> Course<M> {
        Course::new(kind, self.caller(), self.now(), WaitLimit::AsSet)
    }

    /// Makes an object and parks it, if a place is free.
    pub fn add(&self) -> Result<Addition, Error<M::Error>> {
        let mut space = Space::uninit();
        let mut call = InProgress::begin(self, self.course(Kind::Add), &mut space);
        match call.finish()? {
            End::Parked => Ok(Addition::Idle),
            End::NoPlace => Ok(Addition::NoPlace),
            End::Destroyed => Ok(Addition::Destroyed),
            end => Err(call.error(end)),
        }
    }

    /// Makes objects and parks them, until enough are idle by the settings or no place is free. Returns their number.
    pub fn fill(&self) -> Result<u64, Error<M::Error>> {
        let mut space = Space::uninit();
        let mut call = InProgress::begin(self, self.course(Kind::Fill), &mut space);
        match call.finish()? {
            End::Complete => Ok(call.count()),
            // A closed pool has enough, whatever the journal has room for.
            _ if self.lock().core.is_closed() => Ok(call.count()),
            end => Err(call.error(end)),
        }
    }

    /// Examines idle objects, as many as the settings say.
    pub fn evict(&self) -> Result<Eviction, Error<M::Error>> {
        self.evict_by(self.course(Kind::Evict))
    }

    fn evict_by(&self, course: Course<M>) -> Result<Eviction, Error<M::Error>> {
        let mut space = Space::uninit();
        let mut call = InProgress::begin(self, course, &mut space);
        match call.finish()? {
            End::Complete => Ok(Eviction {
                examined: call.count(),
                destroyed: call.call.destroyed(),
            }),
            end => Err(call.error(end)),
        }
    }

    /// Runs an eviction. If objects have a lifetime, further runs look at their ages, until as many were examined as were idle, or a run examines
    /// none.
    fn evict_for_maintenance(&self) -> Result<Eviction, Error<M::Error>> {
        let idle = self.lock().values.len() as u64;
        let mut all = self.evict()?;
        let mut is_over = self.policy.max_lifetime.is_none();
        while !is_over && all.examined < idle {
            let mut course = self.course(Kind::Evict);
            course.sees_ages_only = true;
            let run = self.evict_by(course)?;
            all.examined += run.examined;
            all.destroyed += run.destroyed;
            is_over = run.examined == 0;
        }
        Ok(all)
    }

    /// Reclaims abandoned objects. Returns their number.
    pub fn reclaim(&self) -> Result<u64, Error<M::Error>> {
        let mut space = Space::uninit();
        let mut call = InProgress::begin(self, self.course(Kind::Reclaim), &mut space);
        match call.finish()? {
            End::Complete => Ok(call.count()),
            end => Err(call.error(end)),
        }
    }

    /// Runs an eviction, then a reclaim of abandoned objects, then a fill.
    pub fn maintain(&self) -> Result<Maintenance, Error<M::Error>> {
        self.pass_wakes_on();
        Ok(Maintenance {
            eviction: self.evict_for_maintenance()?,
            reclaimed: self.reclaim()?,
            filled: self.fill()?,
        })
    }

    /// Destroys the idle objects. Returns their number.
    pub fn clear(&self) -> Result<u64, Error<M::Error>> {
        let mut space = Space::uninit();
        let mut call = InProgress::begin(self, self.course(Kind::Clear), &mut space);
        match drive_though_destruction_panics(&mut call)? {
            End::Complete => Ok(call.count()),
            end => Err(call.error(end)),
        }
    }

    /// Closes the pool, destroys the idle objects, and stores the journal. Returns their number.
    pub fn close(&self) -> u64 {
        if let Some(maintainer) = &*self.maintainer() {
            maintainer.stop();
        }
        let mut space = Space::uninit();
        let mut call = InProgress::begin(self, self.course(Kind::Close), &mut space);
        self.wake_for_room(self.lock());
        // The first close never fails. A later one has nothing to do.
        let closed = caught(|| drive_though_destruction_panics(&mut call));
        self.write_rest();
        if let Err(panic) = closed {
            continue_panic(panic);
        }
        call.count()
    }
}

/// Goes on to the end of a call, also if the manager panics meanwhile. Then the first panic continues, unless this thread panics already.
fn drive_though_destruction_panics<M: Manager>(
    call: &mut InProgress<'_, M>,
) -> Result<End, Error<M::Error>> {
    let mut first = None;
    let done = loop {
        match (caught(|| call.finish()), &first) {
            (Ok(done), _) => break done,
            (Err(panic), None) => first = Some(panic),
            (Err(panic), Some(_)) => panic.ignore(),
        }
    };
    first.into_iter().for_each(continue_panic);
    done
}

/// Continues a panic of the manager, unless this thread panics already.
fn continue_panic(panic: Panic) {
    match thread::panicking() {
        true => panic.ignore(),
        false => panic.resume(),
    }
}

impl<M: Manager> Shared<M> {
    /// Ends the pool once its last handle and its last lent object are gone: closes it, so that the manager destroys the idle objects and its threads
    /// end, and hands the rest of the journal to its sink. What is done already is not done again. It does not wait for a round of maintenance, which
    /// may wait for what this thread has.
    pub fn end(&self) {
        let mut state = self.lock();
        let is_done = state.core.is_closed() && state.values.len() == 0;
        drop(state);
        let closed = match is_done {
            true => Ok(0),
            false => caught(|| self.close()),
        };
        let storer = self.storer().take();
        if let Some(storer) = storer {
            storer.end();
        }
        self.write_rest();
        closed.err().into_iter().for_each(continue_panic);
    }
}

/// Nobody has the pool any more. If its thread was in a round when its users ended it, what came since then is done and written now.
///
/// A forked child does nothing with its copy: the objects, the sink and the thread are its parent's.
impl<M: Manager> Drop for Shared<M> {
    fn drop(&mut self) {
        match self.is_of_parent() {
            true => self.leak(),
            false => self.end(),
        }
    }
}
