package io.github.zuphinka;

import java.time.Duration;
import java.time.Instant;
import org.apache.commons.pool2.PooledObjectState;
import org.apache.commons.pool2.TrackedUse;

/**
 * The uses of lent objects that know themselves when they were last used, and that are abandoned otherwise. Each answer that differs from the one before
 * it tells a use, whatever time it names: the wall clock may be set while an object is lent.
 */
final class TrackedUses<T> {
    /** Such an answer may be rounded down to a millisecond. */
    private static final long ROUNDING_MILLIS = 1;
    /** The times of the core are, and those of its settings. */
    private static final long ROUNDING_NANOS = 2_000_000;

    private final LockedPool<T> lockedPool;
    private final Room<T> room;
    private final Work<T> work;

    TrackedUses(LockedPool<T> lockedPool, Room<T> room) {
        this.lockedPool = lockedPool;
        this.room = room;
        work = lockedPool.work;
    }

    /** Remembers the answer of an object whose loan begins, or whose use is noted, if it can be abandoned. It is asked again if it throws. */
    void remember(Member<T> member) {
        if (work.hasTracked() && lockedPool.settings().canBeAbandoned() && isTracked(member)) {
            try {
                member.reported = reportOf(member);
            } catch (RuntimeException e) {
                member.reported = null;
            }
        }
    }

    private static boolean isTracked(Member<?> member) {
        return member.pooled.getObject() instanceof TrackedUse;
    }

    private static Instant reportOf(Member<?> member) {
        return ((TrackedUse) member.pooled.getObject()).getLastUsedInstant();
    }

    /** Returns whether a borrow by these settings may reclaim objects that know themselves when they were last used. */
    boolean mayReclaim(CoreSettings<T> of) {
        return of.reclaimsOnBorrow && work.hasTracked();
    }

    /**
     * Returns whether one that begins now may: idle objects and places are scarce, or may be once the journal has room. The caller holds the lock of the
     * pool, and keeps it until the borrow has begun.
     */
    boolean isToAsk() {
        Counts now = lockedPool.journal.latest();
        int maxTotal = lockedPool.settings().maxTotal;
        boolean isNearLimit = now.idle() < 2 && (maxTotal < 0 || now.lent() + now.reserved() > maxTotal - 3);
        return mayReclaim(lockedPool.settings()) && (isNearLimit || now.room() == 0);
    }

    /** Notes the uses of all lent objects that may be abandoned soon, for a borrow with a limit or another call. */
    void note(int kind, long first, long longestNanos) throws Exception {
        if (!work.hasTracked()) {
            return;
        }
        for (Member<T> member : work.all()) {
            long known = member.usedAt();
            if (isSoonAbandoned(known) && isTracked(member) && member.pooled.getState() == PooledObjectState.ALLOCATED) {
                Instant reported = reportOf(member);
                if (!reported.equals(member.reported)) {
                    noteUse(member, nanosSince(reported, known), kind, first, longestNanos);
                    member.reported = reported;
                }
            }
        }
    }

    /**
     * Returns how many nanoseconds ago a use was that an object reports, by the wall clock. It was later than the one that was known, at this time of
     * {@link System#nanoTime}. So it counts as one of now if the clock says anything else.
     */
    private static long nanosSince(Instant reported, long known) {
        Duration ago = Duration.between(reported, Instant.now());
        Duration most = Duration.ofNanos(System.nanoTime() - known).plusMillis(ROUNDING_MILLIS);
        return ago.isNegative() || ago.compareTo(most) > 0 ? 0 : ago.toNanos();
    }

    /**
     * Returns whether a lent object that was last used at this time of {@link System#nanoTime} is abandoned by now, or may be until the core looks, at
     * the latest after half of the time for that. It takes no lock.
     */
    private boolean isSoonAbandoned(long usedAt) {
        return System.nanoTime() - usedAt >= lockedPool.settings().abandonedNanos / 2 - ROUNDING_NANOS;
    }

    /** Notes that the holder of an object last used it so many nanoseconds ago, for a borrow with a limit or another call. */
    private void noteUse(Member<T> member, long nanosAgo, int kind, long first, long longestNanos) throws Exception {
        Call<T> call = new Call<T>().begin(kind, Callers.number(), first, null);
        if (longestNanos >= 0) {
            call.limitTo(longestNanos, CoreSettings.MOST_MILLIS);
        }
        long used = System.nanoTime() - nanosAgo;
        while (!hasNoted(member, Math.max(used, lockedPool.start), call)) {
            if (room.make(call) != Core.REPORT_ROOM_MADE) {
                boolean isRefused = lockedPool.isClosed() && call.needsOpenPool();
                call.end = isRefused ? Core.END_CLOSED : call.isGivenUp ? Core.END_CANCELLED : Core.END_JOURNAL_FULL;
                Ends.check(call);
            }
        }
    }

    /** Notes a use at a time of {@link System#nanoTime}, unless a later one or loan is known, and returns whether the journal had room for that. */
    private boolean hasNoted(Member<T> member, long used, Call<T> call) {
        lockedPool.take();
        try {
            if (!member.isUsedBefore(used)) {
                return true;
            }
            lockedPool.see(call.caller);
            int status = Core.use(lockedPool.core, lockedPool.millis(used), member.id, call.caller);
            if (status == Core.STATUS_JOURNAL_FULL) {
                call.cuts = lockedPool.journal.cuts();
                call.isRefused = lockedPool.isClosed();
                return false;
            }
            if (status < 0) {
                throw new OutOfMemoryError("zuphinka: no memory for a step");
            }
            member.use(used);
            return true;
        } finally {
            lockedPool.release();
        }
    }
}
