package io.github.zuphinka;

import java.io.IOException;
import java.lang.ref.WeakReference;
import java.nio.file.Path;

/** Cuts and stores the journal of a pool, as its calls and its user ask for it, and as the pool ends. */
final class Storing<T> {
    private final LockedPool<T> lockedPool;
    private final StoredJournal journal;
    private final Work<T> work;
    /** Where the journal is; null if it is in no folder of its own. */
    private final SegmentFolder folder;

    Storing(LockedPool<T> lockedPool) {
        this.lockedPool = lockedPool;
        journal = lockedPool.journal;
        work = lockedPool.work;
        folder = lockedPool.sink instanceof SegmentFolder ? (SegmentFolder) lockedPool.sink : null;
    }

    /** Has the entries stored from time to time, if the journal is to have that, by a thread with a class loader as that of its context. */
    void startFlusher(Journal of, WeakReference<ClassLoader> context) {
        if (of.isFlushed()) {
            lockedPool.startFlusher(new Flusher(this, of.flush, context));
        }
    }

    boolean isClosed() {
        return lockedPool.isClosed();
    }

    /** Leaves nothing of a pool that could not be made. */
    void undo() {
        lockedPool.close();
        lockedPool.wakeFlusher();
        if (folder != null) {
            folder.remove();
        }
    }

    /** Returns where the journal is; null if it is in no folder. */
    Path folder() {
        return folder == null ? null : folder.folder;
    }

    /** What is freed from now on is to be stored by the call that frees it: the pool is closed. */
    void endJournal() {
        lockedPool.wakeFlusher();
        lockedPool.beginEnd();
        flush();
    }

    /** Stores the rest of the journal of a closed pool, once it has as many entries as objects are left: a segment has a line for each of these. */
    void storeLast() {
        Counts counts = lockedPool.completing(journal::counts);
        if (counts.entries() < counts.lent() + counts.reserved()) {
            return;
        }
        flushQuietly(Long.MAX_VALUE);
    }

    /** Does what {@link #flush} does for a call of its own, which is refused if the stack is too full: a lock would be kept. */
    void flushJournal() {
        lockedPool.requireStack();
        flush();
    }

    /** Stores all entries of a journal that is stored. It has no effect in a sink. */
    void flush() {
        flush(Long.MAX_VALUE);
    }

    private void flush(long longestNanos) {
        try {
            journal.storeAll(this::cutRest, longestNanos);
        } catch (IOException | RuntimeException e) {
            work.swallow(e);
        }
    }

    private void cutRest() {
        lockedPool.completing(() -> {
            journal.cutRest();
            return null;
        });
    }

    /** Does the same for a call that is not to fail, unless another thread stores for longer than some nanoseconds. */
    void flushQuietly(long longestNanos) {
        try {
            flush(longestNanos);
        } catch (OutOfMemoryError e) {
            work.swallow(new IllegalStateException(e));
        }
    }

    /** Stores the segment that waits, without the lock, if it is due. */
    void storeDue() {
        try {
            journal.storeDue();
        } catch (Throwable e) {
            work.swallow(e);
        }
    }

    /** Stores the segments that wait, without the lock, also if that failed before, once no other thread stores one. */
    void storeWaiting() {
        if (journal.isPending()) {
            storePending();
        }
    }

    /** Stores the segment that waits, without the lock, also if that failed before. */
    void storePending() {
        try {
            journal.storePending();
        } catch (Throwable e) {
            work.swallow(e);
        }
    }

    /** Returns the journal since it was last cut. */
    Segment segment() {
        Segment segment = lockedPool.locked(journal::segment);
        if (segment == null) {
            throw new OutOfMemoryError("zuphinka: no memory for the journal's text");
        }
        return segment;
    }

    /** Cuts the journal, and returns what was cut. */
    Segment cut() {
        if (journal.isStored()) {
            throw new UnsupportedOperationException("cut: this pool stores its journal; flushJournal stores what it has so far");
        }
        return lockedPool.locked(journal::cutNow);
    }
}
