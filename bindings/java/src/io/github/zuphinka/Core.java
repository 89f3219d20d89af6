package io.github.zuphinka;

import java.nio.ByteBuffer;

/**
 * The native methods of the proved core, and the codes of its calls. The caller holds the lock of the pool, where nothing else is said.
 *
 * <p>A reply is one number: the {@link #action}, the {@link #end}, whether there are more {@link #details}, and the {@link #token}; or a negative
 * status. That of a borrow or a return that is over at once has no details: the object is lent, or idle, and nobody is to be woken.
 */
final class Core {
    static final int KIND_BORROW = 1;
    static final int KIND_RETURN = 2;
    static final int KIND_INVALIDATE = 3;
    static final int KIND_TOUCH = 5;
    static final int KIND_ADD = 6;
    static final int KIND_FILL = 7;
    static final int KIND_EVICT = 8;
    static final int KIND_RECLAIM = 9;
    static final int KIND_CLEAR = 10;
    static final int KIND_CLOSE = 11;

    static final int REPORT_GO_ON = 1;
    static final int REPORT_MADE = 2;
    static final int REPORT_SUCCEEDED = 3;
    static final int REPORT_FAILED = 4;
    static final int REPORT_WOKEN = 5;
    static final int REPORT_ROOM_MADE = 6;
    static final int REPORT_NO_ROOM = 7;
    static final int REPORT_GIVEN_UP = 8;

    static final int ACTION_GO_ON = 1;
    static final int ACTION_MAKE_ROOM = 2;
    static final int ACTION_MAKE = 3;
    static final int ACTION_ACTIVATE = 4;
    static final int ACTION_VALIDATE = 5;
    static final int ACTION_PASSIVATE = 6;
    static final int ACTION_DESTROY = 7;
    static final int ACTION_SLEEP = 8;
    static final int ACTION_DONE = 9;

    static final int END_NONE = 0;
    static final int END_LENT = 1;
    static final int END_CLOSED = 2;
    static final int END_EXHAUSTED = 3;
    static final int END_TIMED_OUT = 4;
    static final int END_MAKE_FAILED = 5;
    static final int END_CREATE_TEST_FAILED = 6;
    static final int END_ACTIVATE_FAILED = 7;
    static final int END_BORROW_TEST_FAILED = 8;
    static final int END_PASSIVATE_FAILED = 9;
    static final int END_PARKED = 10;
    static final int END_DESTROYED = 11;
    static final int END_GONE = 12;
    static final int END_NOT_LENT = 13;
    static final int END_NOTED = 14;
    static final int END_NO_PLACE = 15;
    static final int END_COMPLETE = 16;
    static final int END_JOURNAL_FULL = 17;
    static final int END_OUT_OF_MEMORY = 18;
    static final int END_CANCELLED = 19;
    static final int END_CONTRADICTED = 20;

    static final int STATUS_OUT_OF_MEMORY = -3;
    static final int STATUS_JOURNAL_FULL = -4;
    /** Replies of {@link #begin} and {@link #advance}: the pool has other settings; and two after which the caller has not the lock. */
    static final long OTHER_SETTINGS = -100;
    static final long BUSY = -101;
    static final long TOO_LITTLE_STACK = -102;

    /** The flags of {@link #open}: which methods of the factory the core asks for, and whether objects may be reclaimed. */
    static final int ACTIVATES = 1;
    static final int VALIDATES = 2;
    static final int PASSIVATES = 4;
    static final int RECLAIMS = 8;

    /** Where the {@link #details} are: the object's id, and so on. */
    static final int OBJECT = 0;
    static final int TICKET = 8;
    static final int UNTIL = 16;
    static final int WAKE = 24;
    static final int ENTRIES = 32;
    static final int RECLAIMED = 40;
    static final int PROGRESS = 48;
    static final int LATEST = 56;
    static final int TAKEN = 64;
    static final int THRESHOLD = 72;
    static final int SETTINGS = 80;
    static final int LOCK = 148;
    private static final long HAS_WAKE = 1 << 16;
    private static final long HAS_UNTIL = 2 << 16;
    private static final long AT_ONCE = 4 << 16;
    private static final long HAS_RECLAIMED = 8 << 16;
    private static final long IS_LOW = 16 << 16;

    static {
        NativeLibrary.load();
    }

    private Core() {}

    /** Returns what the call does next. */
    static int action(long reply) {
        return (int) reply & 0xff;
    }

    /** Returns how the call ended. */
    static int end(long reply) {
        return (int) (reply >>> 8) & 0xff;
    }

    /** Returns whether the call at {@link #WAKE}, and then those of {@link #nextWake}, are to be woken. */
    static boolean hasWake(long reply) {
        return (reply & HAS_WAKE) != 0;
    }

    /** Returns whether the wait is over at {@link #UNTIL}. */
    static boolean hasUntil(long reply) {
        return (reply & HAS_UNTIL) != 0;
    }

    /** Returns whether a borrow or a return is over at once, and objects were not reclaimed. */
    static boolean isPlainEnd(long reply) {
        return (reply & 0xff_0000 & ~IS_LOW) == AT_ONCE;
    }

    /** Returns whether an object is to be activated, tested or passivated next, nobody is to be woken, and objects were not reclaimed. */
    static boolean isPlainWork(long reply) {
        long code = reply & 0xff_ffff & ~IS_LOW;
        return code >= ACTION_ACTIVATE && code <= ACTION_PASSIVATE;
    }

    /** Returns whether more objects were reclaimed than are {@link #TAKEN}. */
    static boolean hasReclaimed(long reply) {
        return (reply & HAS_RECLAIMED) != 0;
    }

    /** Returns whether the journal has entries from {@link #THRESHOLD} on. */
    static boolean isLow(long reply) {
        return (reply & IS_LOW) != 0;
    }

    /** Returns whether the next action is for an object, whose {@link #token} the reply has; or an object is lent. */
    static boolean hasObject(long reply) {
        return action(reply) >= ACTION_ACTIVATE && action(reply) <= ACTION_DESTROY || end(reply) == END_LENT;
    }

    /** Returns the token of the call's object. */
    static int token(long reply) {
        return (int) (reply >>> 24);
    }

    /**
     * Opens a core by the text of its settings, and returns its handle, or a negative status. No waiter is overtaken. A call begins only with so many
     * bytes of the stack left. It needs no lock.
     */
    static native long open(byte[] settings, int flags, long stack);

    /** Goes on with the text of other settings and other {@link #RECLAIMS}, and cuts the journal. Returns 0, or a negative status: nothing changed. */
    static native int reconfigure(long core, byte[] settings, int flags);

    /** Frees a core. */
    static native void drop(long core);

    /** Returns the details of the last reply, in the order of bytes of the machine, valid until the core is freed; null if there is no memory. */
    static native ByteBuffer details(long core);

    /** Returns how many bytes of its stack the thread has left, those included that the virtual machine keeps for itself. The caller needs no lock. */
    static native long stackLeft();

    /**
     * Begins a call for the settings with this number, or for any if it is 0, and takes the lock for that, unless the caller holds it. The caller frees it.
     * While the call is in progress it is at {@link #PROGRESS}.
     */
    static native long begin(long core, long at, long id, long token, int caller, int kind, int settings, boolean isHeld);

    /** Goes on with a call in progress after a report, with the lock as {@link #begin}. */
    static native long advance(long core, long progress, long at, long token, int caller, int report, boolean isHeld);

    /** Returns the ticket of the next call to wake, or a negative status. */
    static native long nextWake(long core);

    /** Returns how many objects are lent and calls are in progress. */
    static native long busy(long core);

    /** Returns whether the object with this id is lent. */
    static native boolean isLent(long core, long id);

    /**
     * Sets for how many milliseconds a waiter is overtaken without a limit, and how often after that. Returns the bound, which is greater while one waits
     * that was overtaken more often.
     */
    static native long setOvertakes(long core, long millis, long most);

    /** Notes a use of the object with this id, also one at an earlier time than that of other steps. Returns 0 or a negative status. */
    static native int use(long core, long at, long id, int caller);

    /** Stores the counts, in the order of {@link Counts}. */
    static native void counts(long core, long[] to);

    /**
     * Returns the next part of the text of the journal: its base, and the entries since that. The part after the last one is empty. Null if there is
     * no memory. The two numbers, at first 0, are the lines of the base and the entries that the parts before have.
     */
    static native byte[] part(long core, long[] numbers);

    /** Cuts the journal, and returns 0 or a negative status. */
    static native int cut(long core);
}
