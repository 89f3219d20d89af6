package io.github.zuphinka;

import java.util.function.BooleanSupplier;
import org.apache.commons.pool2.DestroyMode;

/** A call of a thread, from its beginning to its end: what it does next, and what came of it. Its thread alone uses it, but for {@link #isWoken}. */
final class Call<T> {
    int kind;
    /** The number of its thread in the journal. */
    int caller;
    /** When it began, and when it last read the clock: then, or once its last work was done. By {@link System#nanoTime}. */
    long first;
    long now;
    /** For how many nanoseconds it waits at most, besides what the core says; and by how many milliseconds it may wait longer than the settings say.
     * They are no less than any time of the settings if the limit is its own. */
    long limitNanos;
    long moreMillis;
    /** How its object is destroyed. */
    DestroyMode mode = DestroyMode.NORMAL;

    /** Where the core keeps it while it is in progress. */
    long progress;
    /** What it does next, and how it ended. */
    int action;
    int end;
    /** The object that it is for; null if it has none. */
    Member<T> member;
    /** The settings by which it goes on, or has the object that an eviction run examines; and whether new objects are tested, when it began. */
    CoreSettings<T> settings;
    boolean testsOnCreate;
    /** How many objects an eviction run tests yet; it looks at the ages of the others. */
    long testsLeft;
    /** How many objects were idle when an eviction run took its object, if the user has an eviction policy. */
    long idle;
    /** Whether that was activated for the call; or is to be lent without that, once a new one passed its test of testOnCreate. */
    boolean isActivated;
    /** Whether the core knows that the call is given up. */
    boolean isGivenUp;
    /** Whether the place of an object is free by the call. */
    boolean hasFreed;

    /** Why the last work of the factory failed; null if it did not, or if that is told. */
    Throwable fault;
    /** Why the last destruction failed. */
    Throwable destroyFault;
    /** The first error of the factory, which the call throws at its end. */
    Error error;
    /** What a borrow found that got no object. */
    final Shortage shortage = new Shortage();
    /** Why the call cannot go on: it is interrupted, or the journal has no room. */
    Throwable obstacle;
    /** The abandoned objects that it took from their holders, to be destroyed: the first one, which knows the next, and the last. */
    Member<T> reclaimed;
    private Member<T> lastReclaimed;
    /** Whether it took any, also if they are destroyed. */
    boolean hasReclaimed;

    /** The journal, when it had no room: how often it was cut, and whether the pool refuses the call whatever room there is. */
    long cuts;
    boolean isRefused;

    /** When its wait is over by the core, if it is a borrow: in milliseconds of the core, and in nanoseconds since its beginning. */
    long untilMillis = Long.MAX_VALUE;
    long untilNanos = Long.MAX_VALUE;
    /** The ticket by which it is woken, and whether there is a processor to pause on. */
    final Waiters.Ticket ticket = new Waiters.Ticket();
    boolean mayPause;
    Thread thread;
    volatile boolean isWoken;
    /** Whether it is to sleep on. */
    final BooleanSupplier isAsleep = () -> !isWoken && !Thread.currentThread().isInterrupted();
    /** The next one of those that are woken in turns, by the lock of the pool. */
    Call<?> nextTurn;
    /** Whether a thread makes it; otherwise it is kept for the next. The lock of the pool protects it. */
    boolean isTaken;
    /** Whether it has done more than some work on one object since it was last kept. */
    boolean isUnusual;
    /** The next one of those that are kept for any object. */
    Call<T> nextKept;

    /** Begins anew. What only unusual calls change is as it was at first. */
    Call<T> begin(int newKind, int number, long nanoTime, Member<T> object) {
        kind = newKind;
        caller = number;
        first = nanoTime;
        now = nanoTime;
        limitNanos = Long.MAX_VALUE;
        moreMillis = 0;
        action = Core.ACTION_GO_ON;
        end = Core.END_NONE;
        setMember(object);
        isTaken = true;
        isActivated = false;
        return this;
    }

    void setMember(Member<T> object) {
        if (member != object) {
            member = object;
        }
    }

    void setSettings(CoreSettings<T> next) {
        if (settings != next) {
            settings = next;
        }
    }

    /** Ends: it is kept for the next call, which is not to find what it has changed. */
    void leave() {
        isTaken = false;
        if (isUnusual) {
            reset();
        }
    }

    private void reset() {
        isUnusual = false;
        untilMillis = Long.MAX_VALUE;
        untilNanos = Long.MAX_VALUE;
        mode = DestroyMode.NORMAL;
        isGivenUp = false;
        hasFreed = false;
        hasReclaimed = false;
        isRefused = false;
        fault = null;
        error = null;
        obstacle = null;
        lastReclaimed = null;
        thread = null;
    }

    /** Returns the token of its object, or of none. */
    long token() {
        return member == null ? 0 : member.slot;
    }

    /** Returns whether a closed pool refuses it, whatever its journal has room for. */
    boolean needsOpenPool() {
        return kind == Core.KIND_BORROW || kind == Core.KIND_ADD || kind == Core.KIND_FILL || kind == Core.KIND_EVICT;
    }

    boolean isDone() {
        return action == Core.ACTION_DONE;
    }

    /** Returns whether it has lent its object, or that is idle by its return, and there is nothing left to do. */
    boolean isPlain() {
        boolean isGood = kind == Core.KIND_BORROW && end == Core.END_LENT || kind == Core.KIND_RETURN && end == Core.END_PARKED;
        return isGood && error == null && destroyFault == null && reclaimed == null && !hasFreed;
    }

    /** Returns whether it has waited for an object. */
    boolean hasSlept() {
        return thread != null;
    }

    /** Returns how many of some nanoseconds since its beginning are left. */
    long left(long nanos) {
        return nanos == Long.MAX_VALUE ? nanos : Math.max(0, nanos - (System.nanoTime() - first));
    }

    /** Waits no longer than some nanoseconds, nor than the settings say and some milliseconds more. */
    void limitTo(long nanos, long millis) {
        limitNanos = nanos;
        moreMillis = millis;
    }

    /** Returns for how many nanoseconds a borrow may wait yet for room in the journal, by these settings: as long as for an object. */
    long leftForRoom(CoreSettings<?> some) {
        if (!some.config.getBlockWhenExhausted()) {
            return 0;
        }
        return left(limit(some));
    }

    /** Returns for how many nanoseconds a borrow may wait in all, by these settings. */
    long limit(CoreSettings<?> some) {
        return moreMillis > 0 ? limitNanos : Math.min(limitNanos, some.maxWaitNanos);
    }

    /** Keeps the first error; returns whether it is this failure. */
    boolean keepsError(Throwable failure) {
        if (error == null && failure instanceof Error) {
            error = (Error) failure;
            return true;
        }
        return false;
    }

    /** Takes an object that was reclaimed, to be destroyed after those before it. */
    void reclaim(Member<T> object) {
        if (reclaimed == null) {
            reclaimed = object;
        } else {
            lastReclaimed.next = object;
        }
        lastReclaimed = object;
    }

    /** Returns whether the call has to be given up: a borrow whose work ended in an error looks for no other object. */
    boolean isToGiveUp() {
        return error != null && kind == Core.KIND_BORROW && !isGivenUp;
    }

    int giveUp() {
        isGivenUp = true;
        return Core.REPORT_GIVEN_UP;
    }
}
