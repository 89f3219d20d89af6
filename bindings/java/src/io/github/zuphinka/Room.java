package io.github.zuphinka;

import java.io.IOException;

/** Makes room in the full journal of a pool for its calls. */
final class Room<T> {
    private final LockedPool<T> lockedPool;
    private final StoredJournal journal;

    Room(LockedPool<T> lockedPool) {
        this.lockedPool = lockedPool;
        journal = lockedPool.journal;
    }

    /** Makes room for a call. Returns the report; if there is no room, the call has the exception for that. */
    int make(Call<T> call) {
        try {
            if (call.isRefused || journal.isKept()) {
                throw new IllegalStateException("Journal full");
            }
            if (!journal.mayBeCut()) {
                storePending(call);
            }
            cutFull(call.cuts);
            return Core.REPORT_ROOM_MADE;
        } catch (InterruptedException e) {
            call.obstacle = e;
            return call.giveUp();
        } catch (IllegalStateException | Error e) {
            call.obstacle = e;
            return Core.REPORT_NO_ROOM;
        }
    }

    /** Cuts a full journal, unless it was cut since it had been cut so often. */
    private void cutFull(long cuts) {
        lockedPool.takeAgain();
        try {
            if (journal.cuts() == cuts) {
                journal.cutFull();
            }
        } finally {
            lockedPool.release();
        }
    }

    /**
     * Stores the segment that waits. It waits for another thread that stores one: a borrow as long as for an object, other calls without an end. No
     * call waits once the journal was cut meanwhile, nor one that needs an open pool once that is closed.
     */
    private void storePending(Call<T> call) throws InterruptedException {
        if (call.kind == Core.KIND_BORROW) {
            storeWithin(call.leftForRoom(lockedPool.settings()), call);
            return;
        }
        boolean isInterrupted = false;
        try {
            for (;;) {
                try {
                    storeWithin(Long.MAX_VALUE, call);
                    return;
                } catch (InterruptedException e) {
                    isInterrupted = true;
                }
            }
        } finally {
            if (isInterrupted) {
                Thread.currentThread().interrupt();
            }
        }
    }

    private void storeWithin(long nanos, Call<T> call) throws InterruptedException {
        boolean hasStored;
        try {
            hasStored = journal.storePending(nanos, () -> journal.cuts() != call.cuts || lockedPool.isClosed() && call.needsOpenPool());
        } catch (IOException | RuntimeException e) {
            throw new IllegalStateException("Journal full", e);
        }
        if (!hasStored && journal.cuts() == call.cuts) {
            throw new IllegalStateException("Journal full: its sink is slow, and has been storing a segment for " + journal.storingMillis() + " ms");
        }
    }
}
