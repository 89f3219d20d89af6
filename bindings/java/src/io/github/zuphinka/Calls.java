package io.github.zuphinka;

import java.util.concurrent.locks.LockSupport;
import org.apache.commons.pool2.DestroyMode;

/** The calls of a pool, each from its beginning to its end: borrows, returns, and others. */
final class Calls<T> {
    final TrackedUses<T> uses;
    private final LockedPool<T> lockedPool;
    private final Settling<T> settling;
    private final Storing<T> storing;
    private final Room<T> room;
    private final Work<T> work;

    Calls(LockedPool<T> lockedPool, Storing<T> storing) {
        this.lockedPool = lockedPool;
        this.storing = storing;
        settling = new Settling<>(lockedPool);
        room = new Room<>(lockedPool);
        work = lockedPool.work;
        uses = new TrackedUses<>(lockedPool, room);
    }

    /**
     * Lends an object to a borrow that began at this time of {@link System#nanoTime}. It waits no longer than some nanoseconds, if they are not negative.
     */
    Member<T> borrow(long first, long longestNanos) throws Exception {
        int caller = Callers.number();
        long moreMillis = longestNanos < 0 ? 0 : CoreSettings.MOST_MILLIS;
        long limitNanos = longestNanos < 0 ? Long.MAX_VALUE : longestNanos;
        for (;;) {
            Call<T> call;
            long reply = begin(caller, first, moreMillis, longestNanos);
            try {
                lockedPool.see(caller);
                if (Core.isPlainEnd(reply)) {
                    return settling.lendAtOnce(reply, first);
                }
                call = settling.callOf(reply, caller, first);
                call.limitTo(limitNanos, moreMillis);
                Member<T> lent = Core.isPlainWork(reply) ? null : settling.takeUp(call, reply);
                if (lent != null) {
                    return lent;
                }
            } finally {
                lockedPool.release(reply);
            }
            Member<T> lent = lentBy(call);
            if (lent != null) {
                return lent;
            }
            limitNanos = longestNanos < 0 ? lockedPool.settings().maxWaitNanos : longestNanos; // the core counts from now on
        }
    }

    /** Begins a borrow as {@link LockedPool#begin} does, once lent objects were asked when they were last used if it may reclaim them. */
    private long begin(int caller, long first, long moreMillis, long longestNanos) throws Exception {
        for (;;) {
            CoreSettings<T> of = lockedPool.settings();
            boolean isHeld = uses.mayReclaim(of);
            if (isHeld) {
                takeAsked(first, longestNanos);
            }
            long reply = lockedPool.begin(Core.KIND_BORROW, caller, first, moreMillis, 0, isHeld ? 0 : of.number, isHeld);
            if (reply != Core.OTHER_SETTINGS) {
                return reply;
            }
            lockedPool.release();
        }
    }

    /** Takes the lock, once lent objects were asked if a borrow that begins then is to ask them. */
    private void takeAsked(long first, long longestNanos) throws Exception {
        lockedPool.take();
        if (uses.isToAsk()) {
            lockedPool.release();
            uses.note(Core.KIND_BORROW, first, longestNanos);
            lockedPool.take();
        }
    }

    /** Follows a borrow to its end. Returns its object; null if that was taken from it while it destroyed the objects that it took itself. */
    private Member<T> lentBy(Call<T> call) throws Exception {
        boolean isLate = call.isDone() && call.reclaimed != null;
        Member<T> lent = follow(call);
        if (lent != null) {
            return lent;
        }
        Error error = call.error;
        if (call.end != Core.END_LENT || error == null) {
            Ends.check(call);
        }
        Member<T> member = call.member;
        call.leave();
        if (error != null) {
            giveBack(member, System.nanoTime());
            throw error;
        }
        return isLate && !isStillLent(member) ? null : member;
    }

    /** Returns an object by the settings of the moment, at this time of {@link System#nanoTime}. */
    void giveBack(Member<T> member, long now) {
        while (!isGivenBack(member, lockedPool.settings(), now)) {
            // Other settings came between.
        }
    }

    /** Returns whether an object is still lent, and then notes a use, if the journal has room for that: its holder only gets it now. */
    private boolean isStillLent(Member<T> member) {
        long now = System.nanoTime();
        return lockedPool.completing(() -> {
            boolean isLent = member.isLent();
            if (isLent && Core.use(lockedPool.core, lockedPool.timeOf(now), member.id, Callers.number()) == 0) {
                member.use(now);
            }
            return isLent;
        });
    }

    /**
     * Returns an object at this time of {@link System#nanoTime}, if the pool still has these settings, and returns whether it had. Its wrapper was told
     * before if the return has no work by them. One that is too old is not tested or passivated, but invalidated, as far as the core knows.
     */
    boolean isGivenBack(Member<T> member, CoreSettings<T> of, long now) {
        int caller = Callers.number();
        int kind = of.isTooOld(member, now) ? Core.KIND_INVALIDATE : Core.KIND_RETURN;
        Call<T> call;
        long reply = lockedPool.begin(kind, caller, now, member.id, member.slot, of.number, false);
        try {
            if (reply == Core.OTHER_SETTINGS) {
                return false;
            }
            lockedPool.see(caller);
            if (Core.isPlainEnd(reply)) {
                lockedPool.measures.giveBack(member, now);
                return true;
            }
            call = settling.callOf(member, reply, caller, now);
            if (!Core.isPlainWork(reply) && settling.takeUp(call, reply) != null) {
                return true;
            }
        } finally {
            lockedPool.release(reply);
        }
        if (follow(call) == null) {
            Ends.checkUnchecked(call);
        }
        return true;
    }

    /** Makes another call, which is for no object if that is null, and destroys objects in a mode. A second close has no effect. */
    void make(int kind, Member<T> member, DestroyMode mode) throws Exception {
        Ends.check(made(kind, member, mode));
    }

    /** Makes such a call that throws no exception that is checked. */
    void make(int kind, Member<T> member) {
        Ends.checkUnchecked(made(kind, member, DestroyMode.NORMAL));
    }

    private Call<T> made(int kind, Member<T> member, DestroyMode mode) {
        Call<T> call = new Call<T>().begin(kind, Callers.number(), System.nanoTime(), member);
        call.mode = mode;
        lockedPool.take();
        try {
            if (kind == Core.KIND_CLOSE && lockedPool.isClosed()) {
                call.action = Core.ACTION_DONE;
                return call;
            }
            if (kind == Core.KIND_CLOSE) {
                lockedPool.close();
            }
            CoreSettings<T> of = lockedPool.settings();
            call.testsOnCreate = of.config.getTestOnCreate();
            call.testsLeft = kind == Core.KIND_EVICT && of.hasLifetime() ? of.testsOf(lockedPool.journal.latest().idle()) : Long.MAX_VALUE;
            lockedPool.see(call.caller);
            long reply = lockedPool.beginWithin(call);
            settling.begin(call, reply);
            settling.takeUp(call, reply);
        } finally {
            lockedPool.release();
        }
        follow(call);
        return call;
    }

    // The course of a call.

    /** Follows a call from its beginning to its end. Returns its object as {@link Settling#takeUp} does. */
    private Member<T> follow(Call<T> call) {
        for (;;) {
            if (call.isUnusual) {
                work.settle(call);
            }
            if (call.isDone()) {
                break;
            }
            int report = call.isToGiveUp() ? call.giveUp() : act(call);
            call.now = System.nanoTime();
            Member<T> member = advance(call, work.tellReturn(call, report));
            if (member != null) {
                return member;
            }
        }
        if (call.hasFreed && lockedPool.isEnding()) {
            storing.storeLast();
        }
        return null;
    }

    /** Does what a call does next. Returns the report. */
    private int act(Call<T> call) {
        switch (call.action) {
            case Core.ACTION_GO_ON:
                return Core.REPORT_GO_ON;
            case Core.ACTION_MAKE_ROOM:
                return room.make(call);
            case Core.ACTION_SLEEP:
                return sleep(call);
            default:
                return work.act(call);
        }
    }

    /** Reports what came of the last action, and takes up what the call does next. Returns its object as {@link Settling#takeUp} does. */
    private Member<T> advance(Call<T> call, int report) {
        boolean isLimited = call.untilMillis < Long.MAX_VALUE;
        int latest = report;
        if (isLimited) {
            lockedPool.takeAgain();
            while (latest != Core.REPORT_GIVEN_UP && isEarly(call)) {
                lockedPool.release();
                latest = waited(call, latest);
                call.now = System.nanoTime();
                lockedPool.takeAgain();
            }
        }
        long reply = lockedPool.advance(call, latest, isLimited);
        try {
            return settling.advance(call, latest, reply);
        } finally {
            lockedPool.release(reply);
        }
    }

    /** Returns whether the wait of a call is over by the milliseconds of the core, and not yet by the clock: for less than a millisecond. */
    private boolean isEarly(Call<T> call) {
        return lockedPool.timeOf(call.now) >= call.untilMillis && call.left(call.untilNanos) > 0;
    }

    /** Waits until the time of an early call is over. Returns its report. */
    private int waited(Call<T> call, int report) {
        try {
            LockSupport.parkNanos(call, call.left(call.untilNanos));
            return report;
        } catch (Error e) {
            return stopped(call, e);
        }
    }

    /** Sleeps until a call is to look again, or to be given up: also if an error stops its thread. Returns the report. */
    private int sleep(Call<T> call) {
        try {
            return slept(call);
        } catch (Error e) {
            return stopped(call, e);
        }
    }

    /** Gives a call up whose thread is stopped by an error, as for lack of memory, which it throws at its end. */
    private static int stopped(Call<?> call, Error error) {
        call.keepsError(error);
        return call.giveUp();
    }

    private int slept(Call<T> call) {
        if (call.left(call.limitNanos) == 0) {
            return call.giveUp();
        }
        Waiters.sleep(call, Math.min(call.limitNanos, call.untilNanos));
        if (call.isWoken) {
            return Core.REPORT_WOKEN;
        }
        if (Thread.interrupted()) {
            call.obstacle = new InterruptedException();
            return call.giveUp();
        }
        return call.left(call.limitNanos) == 0 ? call.giveUp() : Core.REPORT_WOKEN;
    }
}
