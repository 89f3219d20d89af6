//! The proved core, over its C library. All code that is `unsafe` is here, in `locked`, which has the lock, in `exits`, which asks C's library to be
//! told of the end, and in `clock`, which reads the system's.

use crate::call::{Action, End, Report};
use crate::counts::Counts;
use crate::sys;
use std::ffi::c_char;
use std::io;
use std::mem::MaybeUninit;
use std::ptr::{addr_of, addr_of_mut};

/// A function of the library that returns a line.
type LineFunction =
    unsafe extern "C" fn(*mut sys::Handle, u64, *mut c_char, usize, *mut u64) -> u32;

/// A function of the library that stores what it reads, and never fails.
type ReadFunction<T> = unsafe extern "C" fn(*mut sys::Handle, *mut T) -> u32;

/// A core. It alone owns its handle, and one call of it runs at a time, since each takes `&mut self`: these are the rules of `zuphinka.h`.
/// Tokens are numbers here, and are never dereferenced.
pub(crate) struct Core {
    handle: sys::Handle,
}

// SAFETY: the library has no state except that of the handle, whose calls may come from any thread, one at a time.
unsafe impl Send for Core {}

/// A copy of a call in progress, by which it is given up for its task.
#[derive(Clone, Copy, Debug, Default)]
pub(crate) struct CallCopy(sys::Call);

/// A call, and what it does next.
#[derive(Clone, Copy)]
pub(crate) struct Call {
    /// The library writes it when the call begins. It is initialised unless the action is the last one.
    progress: MaybeUninit<sys::Call>,
    effects: sys::Effects,
}

/// Where a call begins: it is written there in place.
pub(crate) type Space = MaybeUninit<Call>;

/// How a call ended that is over at once: the id and the token of its object, and the code of its end.
#[derive(Clone, Copy)]
pub(crate) struct AtOnce {
    pub id: u64,
    pub token: u64,
    end: u32,
}

/// A call that has begun.
pub(crate) enum Begun<'a> {
    /// It is over: this object is lent, or the returned one is idle, and nobody is to be woken.
    AtOnce(AtOnce),
    On(&'a mut Call),
}

impl Call {
    /// A call that is over, and was given up by its copy.
    #[cold]
    pub fn cancelled() -> Call {
        Call {
            progress: MaybeUninit::uninit(),
            effects: sys::Effects {
                action: sys::ACTION_DONE,
                end: sys::END_CANCELLED,
                ..sys::Effects::default()
            },
        }
    }

    /// A call that ended as it began, since there is no memory for it.
    #[cold]
    pub fn without_memory(space: &mut Space) -> &mut Call {
        let call = space.write(Call::cancelled());
        call.effects.end = sys::END_OUT_OF_MEMORY;
        call
    }

    /// Returns whether it is over since an object is lent.
    #[inline(always)]
    pub fn has_lent(&self) -> bool {
        self.effects.end == sys::END_LENT
    }

    /// Returns whether it asks for work on an object that is there.
    #[inline(always)]
    pub fn asks_for_work(&self) -> bool {
        (sys::ACTION_ACTIVATE..=sys::ACTION_PASSIVATE).contains(&self.effects.action)
    }

    /// Returns whether a call is to be woken.
    #[inline(always)]
    pub fn wakes(&self) -> bool {
        self.effects.has_wake
    }

    /// Returns whether it is over.
    #[inline(always)]
    pub fn is_over(&self) -> bool {
        self.effects.action == sys::ACTION_DONE
    }

    /// A call that was over at once.
    #[cold]
    pub fn over(ended: AtOnce) -> Call {
        let mut call = Call::cancelled();
        (call.effects.number, call.effects.object) = (ended.id, ended.token);
        call.effects.end = ended.end;
        call
    }

    /// It is over, as the library stored, and nobody is to be woken.
    #[inline(always)]
    fn end_at_once(&mut self) {
        self.effects.action = sys::ACTION_DONE;
        self.effects.has_wake = false;
    }

    /// Returns a copy of a call that is not over, which is to be used only while the call itself does not go on.
    pub fn copy(&self) -> CallCopy {
        assert!(!self.is_over(), "{OVER}");
        // SAFETY: the call has begun and is not over.
        CallCopy(unsafe { self.progress.assume_init() })
    }

    #[inline(always)]
    pub fn action(&self) -> Action {
        Action::of(self.effects.action)
    }

    /// Returns how it ended.
    #[inline(always)]
    pub fn end(&self) -> End {
        End::of(self.effects.end)
    }

    /// Returns the id of the object that its action is for, or that is lent.
    #[inline(always)]
    pub fn number(&self) -> u64 {
        self.effects.number
    }

    /// Returns the token of that object, unless it is to be made.
    #[inline(always)]
    pub fn token(&self) -> u64 {
        self.effects.object
    }

    /// Returns its ticket, if it waits.
    pub fn ticket(&self) -> u64 {
        self.effects.ticket
    }

    /// Returns the time at which its wait is over by the settings, in milliseconds.
    pub fn until(&self) -> Option<u64> {
        self.effects.has_until.then_some(self.effects.until)
    }

    /// Returns the ticket of the call to wake.
    #[inline(always)]
    pub fn wake(&self) -> Option<u64> {
        self.effects.has_wake.then_some(self.effects.wake)
    }

    /// Returns how many objects it examined, made, took or destroyed so far.
    pub fn count(&self) -> u64 {
        self.effects.count
    }

    /// Returns how many objects an eviction run destroyed so far.
    pub fn destroyed(&self) -> u64 {
        self.effects.freed
    }
}

const OVER: &str = "a call that is over does not go on";

/// Why no core was opened.
#[derive(Clone, Copy, Debug, PartialEq, Eq)]
pub(crate) enum OpenFault {
    OutOfMemory,
    /// The settings are invalid: a status of the library.
    Settings(u32),
}

/// Why lines were not copied, the journal was not cut, or the settings not changed. The core is unchanged.
#[derive(Clone, Copy, Debug, PartialEq, Eq)]
pub(crate) enum CoreFault {
    JournalFull,
    OutOfMemory,
}

/// A line is not copied, or a journal not cut, only for lack of memory.
impl From<CoreFault> for io::Error {
    fn from(_: CoreFault) -> io::Error {
        io::ErrorKind::OutOfMemory.into()
    }
}

/// Returns the settings of a text. If it is invalid, returns the status of its first error, with the name of the key if it has one.
pub(crate) fn settings_of(text: &str) -> Result<sys::Settings, (u32, String)> {
    let mut key = vec![0u8; 128];
    loop {
        let (mut settings, mut size) = (sys::Settings::default(), 0);
        // SAFETY: text and buffer have these sizes, and no two overlap.
        let status = unsafe {
            let (bytes, start) = (text.as_ptr().cast(), key.as_mut_ptr().cast());
            sys::zuphinka_settings(
                bytes,
                text.len(),
                &mut settings,
                start,
                key.len(),
                &mut size,
            )
        };
        if status == sys::STATUS_DONE {
            return Ok(settings);
        }
        let had_room = size as usize <= key.len();
        key.resize(size as usize, 0);
        if had_room {
            return Err((status, String::from_utf8_lossy(&key).into_owned()));
        }
    }
}

impl Core {
    /// Opens a core with an empty journal, and with settings in TOML.
    pub fn open(settings: &str, options: &sys::Options) -> Result<Core, OpenFault> {
        let mut handle = sys::Handle::EMPTY;
        let (text, size) = (settings.as_ptr().cast(), settings.len());
        // SAFETY: the handle is empty, the text has this size, and no two overlap.
        match unsafe { sys::zuphinka_open_with(&mut handle, text, size, options) } {
            sys::STATUS_DONE => Ok(Core { handle }),
            sys::STATUS_OUT_OF_MEMORY => Err(OpenFault::OutOfMemory),
            status => Err(OpenFault::Settings(status)),
        }
    }

    /// Begins a call, and takes its first steps.
    #[inline(always)]
    pub fn begin<'a>(&mut self, start: &sys::Start, space: &'a mut Space) -> Begun<'a> {
        let call = space.as_mut_ptr();
        // SAFETY: the handle is this core's, and no two of the four overlap.
        let status = unsafe {
            let (progress, effects) = (
                addr_of_mut!((*call).progress),
                addr_of_mut!((*call).effects),
            );
            sys::zuphinka_begin(&mut self.handle, start, progress.cast(), effects)
        };
        match status {
            // SAFETY: then these three of the effects are written.
            sys::STATUS_AT_ONCE => Begun::AtOnce(unsafe {
                AtOnce {
                    id: addr_of!((*call).effects.number).read(),
                    token: addr_of!((*call).effects.object).read(),
                    end: addr_of!((*call).effects.end).read(),
                }
            }),
            // SAFETY: then the effects are written, and the call too, unless it is over.
            sys::STATUS_DONE => Begun::On(unsafe { space.assume_init_mut() }),
            status => unreachable!("the beginning of a call has status {status}"),
        }
    }

    /// Goes on with a call in progress after a report of its last action.
    #[inline(always)]
    pub fn advance(&mut self, event: &sys::Event, call: &mut Call) -> bool {
        assert!(!call.is_over(), "{OVER}");
        let (progress, effects) = (call.progress.as_mut_ptr(), &mut call.effects);
        // SAFETY: the handle is this core's, no two of the four overlap, and the call has begun and is not over.
        match unsafe { sys::zuphinka_advance(&mut self.handle, progress, event, effects) } {
            sys::STATUS_AT_ONCE => call.end_at_once(),
            sys::STATUS_DONE => return false,
            status => unreachable!("a report to a call has status {status}"),
        }
        true
    }

    /// Gives a call up that waits. Returns the ticket of the call to wake.
    #[cold]
    pub fn give_up(&mut self, copy: CallCopy) -> Option<u64> {
        let mut call = Call::cancelled();
        call.progress.write(copy.0);
        call.effects.action = sys::ACTION_SLEEP;
        let event = sys::Event {
            at: 0,
            object: 0,
            caller: 0,
            report: Report::GivenUp,
        };
        self.advance(&event, &mut call);
        debug_assert!(call.is_over());
        call.wake()
    }

    /// Returns the ticket of the next call to wake.
    pub fn next_wake(&mut self) -> Option<u64> {
        let mut ticket = 0;
        // SAFETY: the handle is this core's.
        match unsafe { sys::zuphinka_next_wake(&mut self.handle, &mut ticket) } {
            sys::STATUS_DONE => Some(ticket),
            sys::STATUS_NO_WAKE => None,
            status => unreachable!("a wake has status {status}"),
        }
    }

    /// Returns what a function of the library stores that only reads.
    fn read<T: Default>(&mut self, function: ReadFunction<T>) -> T {
        let mut value = T::default();
        // SAFETY: the handle is this core's, and does not overlap the value.
        let status = unsafe { function(&mut self.handle, &mut value) };
        debug_assert_eq!(status, sys::STATUS_DONE);
        value
    }

    /// Returns the number of calls that wait.
    pub fn waiting(&mut self) -> u64 {
        self.read(sys::zuphinka_state).waiting
    }

    pub fn is_closed(&mut self) -> bool {
        self.read(sys::zuphinka_state).is_closed
    }

    pub fn counts(&mut self) -> Counts {
        self.read(sys::zuphinka_counts)
    }

    /// Returns the number of entries since the last cut.
    pub fn steps(&mut self) -> u64 {
        self.read(sys::zuphinka_steps)
    }

    /// Returns how many entries the journal can still take, besides the outstanding ones.
    pub fn room(&mut self) -> u64 {
        self.read(sys::zuphinka_room)
    }

    /// Appends the line of the entry at a position, from 0, with its line feed. Returns whether there is one.
    ///
    /// # Errors
    ///
    /// An allocation failed. The text is unchanged.
    pub fn line(&mut self, position: u64, text: &mut Vec<u8>) -> Result<bool, CoreFault> {
        self.append(sys::zuphinka_line, position, text)
    }

    /// Appends a line of the base that the entries continue, with its line feed. Returns whether there is one. At 0 is the line with which a
    /// segment begins, and after it one line for each object.
    ///
    /// # Errors
    ///
    /// An allocation failed. The text is unchanged.
    pub fn base_line(&mut self, position: u64, text: &mut Vec<u8>) -> Result<bool, CoreFault> {
        self.append(sys::zuphinka_base, position, text)
    }

    fn append(
        &mut self,
        function: LineFunction,
        position: u64,
        text: &mut Vec<u8>,
    ) -> Result<bool, CoreFault> {
        let (mut line, mut size) = ([0u8; sys::LONGEST_LINE], 0);
        // SAFETY: the handle is this core's, the buffer has this size, and no two overlap.
        let status = unsafe {
            let start = line.as_mut_ptr().cast();
            function(&mut self.handle, position, start, line.len(), &mut size)
        };
        match status {
            sys::STATUS_DONE => {
                text.try_reserve(size as usize)
                    .map_err(|_| CoreFault::OutOfMemory)?;
                text.extend_from_slice(&line[..size as usize]);
                Ok(true)
            }
            sys::STATUS_NO_ENTRY => Ok(false),
            sys::STATUS_OUT_OF_MEMORY => Err(CoreFault::OutOfMemory),
            status => unreachable!("a line has status {status}"),
        }
    }

    /// Cuts the journal: drops its entries, and continues from the state after them, its new base.
    ///
    /// # Errors
    ///
    /// An allocation failed. The core is unchanged.
    pub fn cut(&mut self) -> Result<(), CoreFault> {
        // SAFETY: the handle is this core's.
        match unsafe { sys::zuphinka_cut(&mut self.handle) } {
            sys::STATUS_DONE => Ok(()),
            sys::STATUS_OUT_OF_MEMORY => Err(CoreFault::OutOfMemory),
            status => unreachable!("a cut has status {status}"),
        }
    }

    /// Cuts the journal, and goes on with other settings, in TOML and valid. The calls of `next_wake` are to be woken then.
    ///
    /// # Errors
    ///
    /// The settings leave no room in the journal for the outstanding entries, or an allocation failed. The core is unchanged.
    pub fn reconfigure(&mut self, settings: &str) -> Result<(), CoreFault> {
        let (text, size) = (settings.as_ptr().cast(), settings.len());
        // SAFETY: the handle is this core's, the text has this size, and they do not overlap.
        match unsafe { sys::zuphinka_reconfigure(&mut self.handle, text, size) } {
            sys::STATUS_DONE => Ok(()),
            sys::STATUS_JOURNAL_FULL => Err(CoreFault::JournalFull),
            sys::STATUS_OUT_OF_MEMORY => Err(CoreFault::OutOfMemory),
            status => unreachable!("other settings have status {status}"),
        }
    }
}

impl Drop for Core {
    fn drop(&mut self) {
        // SAFETY: the handle is this core's, and is not used again.
        unsafe { sys::zuphinka_drop(&mut self.handle) }
    }
}
