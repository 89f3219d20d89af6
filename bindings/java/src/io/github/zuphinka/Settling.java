package io.github.zuphinka;

import java.util.concurrent.TimeUnit;

/** What calls do in their lockedPool, after each reply of the core. The caller holds the lock of the pool. */
final class Settling<T> {
    private final LockedPool<T> lockedPool;
    private final Work<T> work;
    private final Members<T> members;
    private final Wakes wakes;
    private final Measures measures;
    /** Calls that are over, for the next ones that are for no object. */
    private Call<T> kept;

    Settling(LockedPool<T> lockedPool) {
        this.lockedPool = lockedPool;
        work = lockedPool.work;
        members = lockedPool.members;
        wakes = lockedPool.wakes;
        measures = lockedPool.measures;
        kept = new Call<>(); // its classes are initialized, as would fail for good on a full stack
    }

    /** Notes that a borrow of this time has lent an object at once, and returns it. */
    Member<T> lendAtOnce(long reply, long first) {
        return measures.lend(members.at(Core.token(reply)), first, 0);
    }

    /**
     * Returns the call of a borrow that has begun: that of its object, one that is kept, or a new one. Without memory for that the borrow is given up. Where
     * the factory is to work on an idle object, the call is ready for that.
     */
    Call<T> callOf(long reply, int caller, long first) {
        Member<T> member = Core.hasObject(reply) ? members.at(Core.token(reply)) : null;
        Call<T> call = hasCall(member) ? member.call : takeKept(reply, caller);
        begin(call.begin(Core.KIND_BORROW, caller, first, member), reply);
        call.isActivated = !work.activates;
        call.testsOnCreate = call.settings.config.getTestOnCreate();
        return call;
    }

    /** Returns the call of a return in the same way: that of its object, unless another thread returns that, too. */
    Call<T> callOf(Member<T> member, long reply, int caller, long now) {
        Call<T> call = hasCall(member) ? member.call : new Call<>();
        begin(call.begin(Core.KIND_RETURN, caller, now, member), reply);
        if (Core.isPlainWork(reply)) {
            measures.giveBack(member, now);
        }
        return call;
    }

    /** Begins a call that has this reply. */
    void begin(Call<T> call, long reply) {
        call.progress = lockedPool.details.getLong(Core.PROGRESS);
        call.action = Core.action(reply);
        call.setSettings(lockedPool.settings());
    }

    private static boolean hasCall(Member<?> member) {
        return member != null && member.call != null && !member.call.isTaken;
    }

    private Call<T> takeKept(long reply, int caller) {
        Call<T> call = kept == null ? madeFor(caller, reply) : kept;
        kept = call.nextKept;
        call.nextKept = null;
        return call;
    }

    private Call<T> madeFor(int caller, long reply) {
        try {
            return new Call<>();
        } catch (OutOfMemoryError e) {
            long progress = lockedPool.details.getLong(Core.PROGRESS);
            wakes.wakeBy(reply);
            if (progress != 0) {
                wakes.wakeBy(Core.advance(lockedPool.core, progress, 0, 0, caller, Core.REPORT_GIVEN_UP, true));
            }
            throw e;
        }
    }

    /** Keeps a call that is over for its object, or for any. Returns the object. */
    private Member<T> keep(Call<T> call) {
        Member<T> member = call.member;
        call.leave();
        if (member.call != call) {
            call.member = null;
            call.nextKept = kept;
            kept = call;
        }
        return member;
    }

    // Reports and replies.

    /** Takes up what a call does next after a report. Returns its object as {@link #takeUp} does. */
    Member<T> advance(Call<T> call, int report, long reply) {
        boolean isUsual = !call.isUnusual;
        if (isUsual && Core.isPlainEnd(reply)) {
            return endAtOnce(call);
        }
        noteReport(call, report);
        if (isUsual && Core.isPlainWork(reply)) {
            call.action = Core.action(reply);
            return null;
        }
        return takeUp(call, reply);
    }

    /** Notes what a report changes. */
    private void noteReport(Call<T> call, int report) {
        switch (call.action) {
            case Core.ACTION_MAKE:
                if (report != Core.REPORT_MADE) {
                    free(call);
                }
                break;
            case Core.ACTION_VALIDATE:
                if (call.kind == Core.KIND_BORROW && call.isActivated && report != Core.REPORT_SUCCEEDED) {
                    measures.failOnBorrow();
                }
                call.isActivated |= !work.activates;
                break;
            case Core.ACTION_DESTROY:
                if (report != Core.REPORT_GIVEN_UP) {
                    free(call);
                }
                break;
            case Core.ACTION_SLEEP:
                wakes.leave(call);
                break;
            default:
        }
    }

    /** The place of a call's object is free, unless it was reclaimed before. */
    private void free(Call<T> call) {
        if (members.at(call.member.slot) == call.member) {
            members.remove(call.member);
        }
        call.hasFreed = true;
    }

    /**
     * Takes up what a call does next. Where there is no memory for that, the call is given up. Returns its object if it is over as it should be: then it is
     * kept, and another thread may have it soon. Otherwise null.
     */
    Member<T> takeUp(Call<T> call, long reply) {
        call.isUnusual = true;
        try {
            return takeUpOnce(call, reply);
        } catch (OutOfMemoryError e) {
            wakes.leave(call);
            wakes.wakeBy(reply);
            call.keepsError(e);
            return takeUpOnce(call, lockedPool.advance(call, call.giveUp(), true));
        }
    }

    private Member<T> takeUpOnce(Call<T> call, long reply) {
        call.action = Core.action(reply);
        call.end = Core.end(reply);
        if (call.action == Core.ACTION_SLEEP) {
            limitSleep(call, reply);
        }
        if (Core.hasReclaimed(reply)) {
            takeReclaimed(call);
        }
        prepare(call, reply);
        noteEndOfLoan(call);
        if (call.isDone()) {
            noteEnd(call);
        }
        wakes.wakeBy(reply);
        return call.isPlain() ? keep(call) : null;
    }

    /** Ends a call at once that has worked on one object alone. Returns that: it is lent, or idle. */
    private Member<T> endAtOnce(Call<T> call) {
        if (call.kind == Core.KIND_BORROW) {
            measures.lend(call.member, call.now, call.now - call.first);
        }
        return keep(call);
    }

    /** Has what the next action needs. */
    private void prepare(Call<T> call, long reply) {
        if (call.kind != Core.KIND_EVICT || call.action == work.firstOfTest()) {
            call.setSettings(lockedPool.settings()); // an idle test ends by those by which it began
        }
        switch (call.action) {
            case Core.ACTION_MAKE_ROOM:
                call.cuts = lockedPool.journal.cuts();
                call.isRefused = lockedPool.isClosed() && call.needsOpenPool();
                break;
            case Core.ACTION_MAKE:
                Call<T> ofReturn = new Call<>();
                call.member = members.add(lockedPool.details.getLong(Core.OBJECT));
                call.member.call = ofReturn;
                call.isActivated = !work.activates && !call.testsOnCreate;
                break;
            case Core.ACTION_SLEEP:
                call.ticket.number = lockedPool.details.getLong(Core.TICKET);
                call.mayPause = Core.busy(lockedPool.core) <= Pauses.PROCESSORS;
                wakes.waiters.add(call);
                break;
            case Core.ACTION_ACTIVATE:
            case Core.ACTION_VALIDATE:
            case Core.ACTION_PASSIVATE:
            case Core.ACTION_DESTROY:
                takeObject(call, Core.token(reply));
                call.idle = call.settings.policy != null && call.kind == Core.KIND_EVICT ? lockedPool.journal.latest().idle() : 0;
                break;
            default:
                if (call.end == Core.END_LENT) {
                    takeObject(call, Core.token(reply));
                }
        }
    }

    /** Has the time at which the wait of a call is over by the settings of the moment. */
    private void limitSleep(Call<T> call, long reply) {
        boolean hasUntil = Core.hasUntil(reply);
        call.untilMillis = hasUntil ? lockedPool.details.getLong(Core.UNTIL) : Long.MAX_VALUE;
        call.untilNanos = hasUntil ? TimeUnit.MILLISECONDS.toNanos(call.untilMillis - lockedPool.millis(call.first)) : Long.MAX_VALUE;
    }

    /** Has the object that the next action is for, or that is lent. The one of a return or an invalidation is given. */
    private void takeObject(Call<T> call, int token) {
        if (call.kind != Core.KIND_RETURN && call.kind != Core.KIND_INVALIDATE) {
            Member<T> member = members.at(token);
            call.isActivated = member == call.member ? call.isActivated : !work.activates;
            call.setMember(member);
        }
    }

    /**
     * Takes the objects that were reclaimed from their holders by the last steps of a call, which is to destroy them, in the order of their ids. A call
     * looks on from where it found the last ones: it took those with smaller ids before, except for those that were abandoned only since then.
     */
    private void takeReclaimed(Call<T> call) {
        if (!call.hasReclaimed) {
            call.hasReclaimed = true;
            members.search();
        }
        long total = lockedPool.details.getLong(Core.RECLAIMED);
        long taken = lockedPool.details.getLong(Core.TAKEN);
        for (int left = members.size(); left > 0 && taken < total; left--) {
            Member<T> member = members.nextSought();
            if (member.isLent() && !Core.isLent(lockedPool.core, member.id)) {
                member.isGone = true;
                member.end();
                members.remove(member);
                call.reclaim(member);
                taken++;
            }
        }
        lockedPool.details.putLong(Core.TAKEN, taken);
    }

    /** Notes the end of a loan, if the core took the object back. */
    private void noteEndOfLoan(Call<T> call) {
        boolean isEnd = call.kind == Core.KIND_RETURN || call.kind == Core.KIND_INVALIDATE;
        boolean isWork = call.action >= Core.ACTION_ACTIVATE && call.action <= Core.ACTION_DESTROY;
        if (!isEnd || !call.member.isLent() || !(isWork || call.end == Core.END_PARKED)) {
            return;
        }
        if (call.kind == Core.KIND_RETURN) {
            measures.giveBack(call.member, call.first);
        } else {
            measures.end(call.member, call.first);
        }
    }

    /** Notes the end of a call. A closed pool is closed, whatever a call lacks. */
    private void noteEnd(Call<T> call) {
        boolean lacks = call.end == Core.END_JOURNAL_FULL || call.end == Core.END_OUT_OF_MEMORY;
        if (lacks && lockedPool.isClosed() && call.needsOpenPool()) {
            call.end = Core.END_CLOSED;
        }
        if (call.end == Core.END_LENT) {
            measures.lend(call.member, call.now, call.now - call.first);
        }
        if (call.end == Core.END_NOTED) {
            call.member.use(call.now);
        }
        boolean isTimedOut = call.end == Core.END_TIMED_OUT || call.end == Core.END_CANCELLED;
        if (call.kind == Core.KIND_BORROW && (isTimedOut || call.end == Core.END_EXHAUSTED)) {
            call.shortage.note(lockedPool.name, call, lockedPool.journal.latest(), wakes.waiters.size(), lockedPool.settings());
        }
        boolean isOther = call.error != null || call.obstacle != null || Thread.currentThread().isInterrupted();
        if (call.kind == Core.KIND_BORROW && isTimedOut && !isOther) {
            measures.timeOut();
        }
    }
}
