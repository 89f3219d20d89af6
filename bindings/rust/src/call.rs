//! The calls of the core: of what kind they are, what they ask for next, what is reported of that, and how they end.

use crate::sys;

/// What a call is for.
#[derive(Clone, Copy, Debug, PartialEq, Eq)]
#[repr(u32)]
pub(crate) enum Kind {
    Borrow = sys::KIND_BORROW,
    Return = sys::KIND_RETURN,
    Invalidate = sys::KIND_INVALIDATE,
    Detach = sys::KIND_DETACH,
    Touch = sys::KIND_TOUCH,
    Add = sys::KIND_ADD,
    Fill = sys::KIND_FILL,
    Evict = sys::KIND_EVICT,
    Reclaim = sys::KIND_RECLAIM,
    Clear = sys::KIND_CLEAR,
    Close = sys::KIND_CLOSE,
}

impl Kind {
    /// Returns whether such a call may make an object.
    pub fn makes(self) -> bool {
        matches!(self, Kind::Borrow | Kind::Add | Kind::Fill)
    }

    /// Returns whether such a call has the value of a lent object, which is not the pool's before it is idle.
    pub fn ends_loan(self) -> bool {
        matches!(self, Kind::Return | Kind::Invalidate)
    }

    /// Returns whether a closed pool refuses such a call.
    pub fn needs_open_pool(self) -> bool {
        matches!(self, Kind::Borrow | Kind::Add | Kind::Evict)
    }
}

/// What became of the last action of a call.
#[derive(Clone, Copy, Debug, PartialEq, Eq)]
#[repr(u32)]
pub(crate) enum Report {
    GoOn = sys::REPORT_GO_ON,
    Made = sys::REPORT_MADE,
    Succeeded = sys::REPORT_SUCCEEDED,
    Failed = sys::REPORT_FAILED,
    Woken = sys::REPORT_WOKEN,
    RoomMade = sys::REPORT_ROOM_MADE,
    NoRoom = sys::REPORT_NO_ROOM,
    GivenUp = sys::REPORT_GIVEN_UP,
}

/// An enum whose variants have the codes of the library.
macro_rules! coded {
    ($(#[$about:meta])* $name:ident { $($(#[$note:meta])* $variant:ident = $code:path,)* }) => {
        $(#[$about])*
        #[derive(Clone, Copy, Debug, PartialEq, Eq)]
        #[repr(u32)]
        pub(crate) enum $name {
            $($(#[$note])* $variant = $code,)*
        }

        impl $name {
            /// Returns the one of a code.
            #[inline(always)]
            pub fn of(code: u32) -> $name {
                match code {
                    $($code => $name::$variant,)*
                    code => unreachable!("a call has {} {code}", stringify!($name)),
                }
            }
        }
    };
}

coded! {
    /// What a call does next.
    Action {
        /// It takes further steps, after others had the lock.
        GoOn = sys::ACTION_GO_ON,
        MakeRoom = sys::ACTION_MAKE_ROOM,
        Make = sys::ACTION_MAKE,
        Activate = sys::ACTION_ACTIVATE,
        Validate = sys::ACTION_VALIDATE,
        Passivate = sys::ACTION_PASSIVATE,
        Destroy = sys::ACTION_DESTROY,
        Sleep = sys::ACTION_SLEEP,
        /// Nothing: it is over.
        Done = sys::ACTION_DONE,
    }
}

coded! {
    /// How a call ended.
    End {
        Lent = sys::END_LENT,
        Closed = sys::END_CLOSED,
        Exhausted = sys::END_EXHAUSTED,
        TimedOut = sys::END_TIMED_OUT,
        MakeFailed = sys::END_MAKE_FAILED,
        CreateTestFailed = sys::END_CREATE_TEST_FAILED,
        ActivateFailed = sys::END_ACTIVATE_FAILED,
        BorrowTestFailed = sys::END_BORROW_TEST_FAILED,
        PassivateFailed = sys::END_PASSIVATE_FAILED,
        Parked = sys::END_PARKED,
        Destroyed = sys::END_DESTROYED,
        Gone = sys::END_GONE,
        NotLent = sys::END_NOT_LENT,
        Noted = sys::END_NOTED,
        NoPlace = sys::END_NO_PLACE,
        Complete = sys::END_COMPLETE,
        JournalFull = sys::END_JOURNAL_FULL,
        OutOfMemory = sys::END_OUT_OF_MEMORY,
        Cancelled = sys::END_CANCELLED,
        Contradicted = sys::END_CONTRADICTED,
    }
}
