package io.github.zuphinka;

import java.io.IOException;
import java.nio.ByteBuffer;
import java.util.ArrayList;
import java.util.List;
import java.util.concurrent.TimeUnit;
import java.util.concurrent.locks.ReentrantLock;
import java.util.function.BooleanSupplier;

/** Cuts the journal of a core in time, and stores what is cut. Where nothing else is said, the caller holds the lock of the pool. */
final class StoredJournal {
    /** At how many entries a dropped journal is dropped, if it has room for twice as many. They take 280 KB. */
    private static final long DROPPED_ENTRIES = 5_000;
    /** A cut takes time for each object, so that many entries for each are stored before a drop. */
    private static final long ENTRIES_PER_OBJECT = 8;
    /** The number of a line that no base and no journal has. */
    private static final long NO_LINE = Long.MAX_VALUE;
    /** After how many nanoseconds a call that waits for another thread's store looks again whether its wait is over. */
    private static final long LOOK_NANOS = 10_000_000;

    /** From how many bytes of text on that wait to be stored no more are cut off. */
    private static final long MOST_WAITING = 16 << 20;

    private final long core;
    /** What the last reply of the core says: how many entries are stored. */
    private final ByteBuffer details;
    private final Journal journal;
    /** Stores what is cut off; null if that is dropped or kept. */
    private final SegmentSink sink;
    private CoreSettings<?> settings;
    /** How often it was cut. It changes with the lock of the pool. */
    private volatile long cuts;
    /** The counts of the core when they were last read, which needs no memory. */
    private final long[] numbers = new long[Counts.NUMBERS];
    private final Counts latest = new Counts(numbers);
    /** How many entries were outstanding when it was last cut. */
    private long outstanding;
    /** The segments that are cut and not yet stored, or not yet returned by {@link #cutNow} if the journal is kept. */
    private final Segments pending = new Segments();
    /** Whether the next call stores these segments. After a failure it is due again once half of the room that was left is used up. */
    private volatile boolean isDue;
    /** Whether the sink failed when it was last called. */
    private volatile boolean hasFailed;
    /** When the sink was last called, by {@link System#nanoTime}, while a thread stores something. */
    private volatile long calledAt;
    /** Held while a segment is stored, so that segments are stored one at a time. The lock of the pool is not held meanwhile. */
    private final ReentrantLock storing = new ReentrantLock();

    StoredJournal(long core, ByteBuffer details, Journal journal, SegmentSink sink, CoreSettings<?> settings) {
        this.core = core;
        this.details = details;
        this.journal = journal;
        this.sink = sink;
        this.settings = settings;
        noteCut();
    }

    /** Returns at how many entries the journal is cut, if so many objects are present. */
    private long enough(int present) {
        long half = Math.max(1, journal.limit / 2);
        return journal.isDropped ? Math.min(half, Math.max(DROPPED_ENTRIES, ENTRIES_PER_OBJECT * present)) : half;
    }

    private long entries() {
        return details.getLong(Core.ENTRIES);
    }

    /** Returns whether entries are in memory. */
    boolean hasEntries() {
        return sink != null && entries() > 0;
    }

    /** Returns whether the journal is kept: nothing but a call of the user's cuts it. */
    boolean isKept() {
        return sink == null && !journal.isDropped;
    }

    /** Returns whether it may be cut now: not if its sink fails, or has more to store than is to be in memory. The caller needs no lock. */
    boolean mayBeCut() {
        return sink == null || !isPending() || !hasFailed && pending.bytes() < MOST_WAITING;
    }

    /** Cuts the journal if it has enough entries, and may be cut. The segments that wait are due then. So many objects are present. */
    void cutIfLow(int present) {
        long entries = entries();
        if (entries < details.getLong(Core.THRESHOLD)) {
            return;
        }
        setThreshold(enough(present));
        if (entries < enough(present)) {
            return;
        }
        isDue |= isPending();
        if (!mayBeCut() || !cut()) {
            setThreshold(entries + Math.max(1, Math.min(entries, (journal.limit - entries) / 2)));
        }
    }

    /** Has the journal looked at again at so many entries, unless it is kept. */
    private void setThreshold(long number) {
        details.putLong(Core.THRESHOLD, isKept() ? Long.MAX_VALUE : number);
    }

    /** Cuts the journal, and returns whether there was memory for that. */
    private boolean cut() {
        if (sink == null) {
            return cutCore();
        }
        Segment segment;
        try {
            segment = segment();
        } catch (OutOfMemoryError e) {
            return false;
        }
        if (segment == null || !cutCore()) {
            return false;
        }
        pending.add(segment);
        isDue = true;
        return true;
    }

    private boolean cutCore() {
        if (Core.cut(core) != 0) {
            return false;
        }
        noteCut();
        return true;
    }

    private void noteCut() {
        cuts++;
        setThreshold(enough(0));
        outstanding = journal.limit - latest().room();
    }

    /** Looks whether it has room for the objects of other settings, as {@link JournalRoom#require}. The caller needs no lock. */
    void require(CoreSettings<?> next) {
        JournalRoom.require(next, journal);
    }

    /**
     * Goes on with other settings, and cuts the journal: what it stored is a segment with the old ones, unless it is dropped.
     *
     * @throws IllegalStateException if it has no room for the entries that complete what is in progress. Nothing changes
     * @throws OutOfMemoryError if there is no memory. Nothing changes
     */
    void reconfigure(CoreSettings<?> next) {
        Segment segment = journal.isDropped ? null : segment();
        boolean isCopied = journal.isDropped || segment != null;
        int status = isCopied ? Core.reconfigure(core, next.bytes(), next.flags()) : Core.STATUS_OUT_OF_MEMORY;
        if (status == Core.STATUS_OUT_OF_MEMORY) {
            throw new OutOfMemoryError("zuphinka: no memory for other settings");
        }
        if (status == Core.STATUS_JOURNAL_FULL) {
            throw new IllegalStateException("Journal full");
        }
        if (status < 0) {
            throw next.rejected(status);
        }
        noteCut();
        settings = next;
        if (segment != null && segment.entries() > 0) {
            pending.add(segment);
            isDue = sink != null;
        }
    }

    /** Returns the journal since it was last cut; null if there is no memory. */
    Segment segment() {
        List<byte[]> base = text(0, NO_LINE);
        List<byte[]> lines = base == null ? null : text(NO_LINE, 0);
        if (lines == null) {
            return null;
        }
        Counts counts = counts();
        return new Segment(counts.steps() - counts.entries(), counts.entries(), base, lines, settings.text(), outstanding);
    }

    /** Returns the lines of the base from one on, and the entries from one on; null if there is no memory. */
    private List<byte[]> text(long ofBase, long entry) {
        List<byte[]> parts = new ArrayList<>();
        long[] next = {ofBase, entry};
        byte[] part = Core.part(core, next);
        while (part != null && part.length > 0) {
            parts.add(part);
            part = Core.part(core, next);
        }
        return part == null ? null : parts;
    }

    /** Returns the counts, which change when they are read again. It needs no memory. */
    Counts latest() {
        Core.counts(core, numbers);
        return latest;
    }

    Counts counts() {
        long[] numbers = new long[Counts.NUMBERS];
        Core.counts(core, numbers);
        return new Counts(numbers);
    }

    /** Returns what a change of the settings has cut off of a kept journal, the oldest first; or cuts the journal, and returns what was cut. */
    Segment cutNow() {
        Segment earlier = isKept() ? pending.removeFirst() : null;
        if (earlier != null) {
            return earlier;
        }
        Segment segment = segment();
        if (segment == null || !cutCore()) {
            throw new OutOfMemoryError("zuphinka: no memory to cut the journal");
        }
        return segment;
    }

    /**
     * Cuts a full journal.
     *
     * @throws IllegalStateException if there is nothing to cut
     */
    void cutFull() {
        if (latest().entries() == 0) {
            throw new IllegalStateException("Journal full");
        }
        if (!cut()) {
            throw new OutOfMemoryError("zuphinka: no memory to cut the journal");
        }
    }

    /** Returns how often the journal was cut. The caller needs no lock. */
    long cuts() {
        return cuts;
    }

    /** Returns whether this thread stores a segment. The caller needs no lock. */
    boolean isInSink() {
        return storing.isHeldByCurrentThread();
    }

    /** Returns whether it is stored in segments. The caller needs no lock. */
    boolean isStored() {
        return sink != null;
    }

    /** Returns whether a segment waits to be stored. The caller needs no lock. */
    boolean isPending() {
        return sink != null && pending.first() != null;
    }

    /** Returns for how many milliseconds the sink has been storing a segment. The caller needs no lock. */
    long storingMillis() {
        return TimeUnit.NANOSECONDS.toMillis(System.nanoTime() - calledAt);
    }

    /**
     * Stores the segments that wait, if they are due and no other thread does. The caller needs no lock.
     *
     * @throws IOException if the sink fails. The segment still waits.
     * @throws RuntimeException the same; with an error of the sink as its cause
     */
    void storeDue() throws IOException {
        while (isDue && !storing.isHeldByCurrentThread() && storing.tryLock()) {
            storeAndUnlock();
        }
    }

    /**
     * Stores the segments that wait, if there are some, once other threads have stored theirs; otherwise as {@link #storeDue}. It has no effect in a
     * sink, which would wait for itself.
     */
    void storePending() throws IOException {
        if (!storing.isHeldByCurrentThread()) {
            storing.lock();
            storeAndUnlock();
        }
    }

    /**
     * Does the same, and between two such stores calls what cuts off the rest, unless another thread stores for longer than some nanoseconds. No other
     * thread stores the rest meanwhile.
     */
    void storeAll(Runnable cut, long nanos) throws IOException {
        if (storing.isHeldByCurrentThread() || !hasTurn(nanos)) {
            return;
        }
        try {
            store();
            cut.run();
            store();
        } finally {
            storing.unlock();
        }
    }

    /** Does the same as {@link #storePending()}, unless the wait for that is over, or another thread stores for longer than some nanoseconds: then it
     * returns false. */
    boolean storePending(long nanos, BooleanSupplier isOver) throws IOException, InterruptedException {
        if (storing.isHeldByCurrentThread() || !hasTurn(nanos, isOver)) {
            return false;
        }
        storeAndUnlock();
        return true;
    }

    /** Takes the turn to store segments, whatever interrupts the thread. Returns false once some nanoseconds are over. */
    private boolean hasTurn(long nanos) {
        boolean isInterrupted = Thread.interrupted();
        long begun = System.nanoTime();
        try {
            for (;;) {
                try {
                    return storing.tryLock(nanos - (System.nanoTime() - begun), TimeUnit.NANOSECONDS);
                } catch (InterruptedException e) {
                    isInterrupted = true;
                }
            }
        } finally {
            if (isInterrupted) {
                Thread.currentThread().interrupt();
            }
        }
    }

    /** Takes the turn to store segments, and returns true; or false once the wait for it is over, and after some nanoseconds at the latest. */
    private boolean hasTurn(long nanos, BooleanSupplier isOver) throws InterruptedException {
        long begun = System.nanoTime();
        boolean hasTurn = storing.tryLock();
        for (long left = nanos; !hasTurn && left >= 0 && !isOver.getAsBoolean(); left = nanos - (System.nanoTime() - begun)) {
            hasTurn = storing.tryLock(Math.min(left, LOOK_NANOS), TimeUnit.NANOSECONDS);
        }
        if (hasTurn && isOver.getAsBoolean()) {
            storing.unlock();
            return false;
        }
        return hasTurn;
    }

    private void storeAndUnlock() throws IOException {
        try {
            store();
        } finally {
            storing.unlock();
        }
    }

    /** Stores the segments that wait. The caller has the turn. */
    private void store() throws IOException {
        isDue = false;
        while (isPending()) {
            calledAt = System.nanoTime();
            store(pending.first());
            pending.removeFirst();
        }
    }

    private void store(Segment segment) throws IOException {
        boolean hasStored = false;
        try {
            sink.store(segment);
            hasStored = true;
        } catch (Error e) {
            throw new IllegalStateException("The sink failed", e);
        } finally {
            hasFailed = !hasStored;
        }
    }

    /** Cuts the rest of a journal that is stored. */
    void cutRest() {
        if (sink != null && latest().entries() > 0 && !cut()) {
            throw new OutOfMemoryError("zuphinka: no memory to cut the journal");
        }
    }
}
