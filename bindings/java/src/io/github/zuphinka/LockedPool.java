package io.github.zuphinka;

import java.io.IOException;
import java.io.UncheckedIOException;
import java.lang.ref.Reference;
import java.nio.ByteBuffer;
import java.time.Instant;
import java.util.concurrent.locks.LockSupport;
import java.util.function.Supplier;

/**
 * A pool under its lock: the critical sections, and what the lock protects. The core says what a call does next. The call does that without the
 * lock, and reports it in a further section, until it is over.
 */
final class LockedPool<T> {
    private static final long NANOS_OF_MILLI = 1_000_000;

    final Work<T> work;
    /** They change with the lock. */
    private volatile CoreSettings<T> settings;
    private volatile boolean isClosed;
    /** Set before a close stores the rest of the journal. */
    private volatile boolean isEnding;
    /** Stores the entries from time to time; null if nothing does. It does not change once the pool is made. */
    private volatile Flusher flusher;
    /** What tells the pool from others in messages. */
    volatile String name = "";
    final long start = System.nanoTime();
    private final long neededStack;
    /** Where segments are stored; null if none are. */
    final SegmentSink sink;
    private final PoolLock lock;

    // The lock protects what follows.
    final long core;
    /** What the last reply says besides. */
    final ByteBuffer details;
    final Members<T> members = new Members<>();
    final Wakes wakes;
    final Measures measures = new Measures();
    final StoredJournal journal;
    /** The names of the callers, for the journal; null if that has none. */
    private final CallerNames names;

    LockedPool(CoreSettings<T> settings, Journal journal, Work<T> work) {
        Instant zero = Instant.now();
        this.work = work;
        JournalRoom.require(settings, journal);
        Callers.load();
        Pauses.load();
        neededStack = NeededStack.bytes();
        core = JournalRoom.open(settings, work.flags() | settings.flags(), neededStack);
        Cores.register(this, core);
        details = JournalRoom.detailsOf(core);
        lock = new PoolLock(details);
        wakes = new Wakes(core, details, settings.config.getFairness());
        names = journal.names();
        sink = sinkOf(journal, zero);
        this.journal = new StoredJournal(core, details, journal, sink, settings);
        setSettings(settings, 1);
    }

    private SegmentSink sinkOf(Journal journal, Instant zero) {
        try {
            return journal.open(zero, names);
        } catch (IOException e) {
            throw new UncheckedIOException(e);
        }
    }

    void startFlusher(Flusher made) {
        flusher = made;
        made.start();
    }

    // The lock.

    /** Takes the lock for a section. Those that complete work on an object take it by {@link #takeAgain}. */
    void take() {
        requireStack();
        lock.take();
    }

    /** Takes the lock for a further section of a call, which must not end for lack of stack. */
    void takeAgain() {
        lock.take();
    }

    /** Throws an error if the stack is too full for the sections of a call, which would end in one with the lock, or without an object. */
    void requireStack() {
        if (Core.stackLeft() < neededStack) {
            throw tooLittleStack();
        }
    }

    private static StackOverflowError tooLittleStack() {
        return new StackOverflowError("zuphinka: too little stack");
    }

    /** Lets the lock go after a step with this reply. */
    void release(long reply) {
        if (Core.isLow(reply) || isEnding || wakes.hasWoken()) {
            release();
        } else {
            lock.free();
            Reference.reachabilityFence(this);
        }
    }

    /** Lets the lock go, and then the thread that was woken run, which finds the lock free. */
    void release() {
        Thread next = wakes.takeWoken();
        boolean isLate = false;
        try {
            journal.cutIfLow(members.size());
            isLate = isEnding && journal.hasEntries();
        } finally {
            lock.free();
            LockSupport.unpark(next);
            Reference.reachabilityFence(this);
        }
        if (isLate) {
            flushLater();
        }
    }

    /** Returns the result of a section that begins a call. */
    <R> R locked(Supplier<R> section) {
        requireStack();
        return completing(section);
    }

    /** Returns the result of a section that completes a call. */
    <R> R completing(Supplier<R> section) {
        takeAgain();
        try {
            return section.get();
        } finally {
            release();
        }
    }

    /** Returns a reading of {@link System#nanoTime} as a time of the core. */
    long millis(long nanoTime) {
        return (nanoTime - start) / NANOS_OF_MILLI;
    }

    /** Returns the same as the time of the next step. The clock is read without the lock, so another step may be later. */
    long timeOf(long nanoTime) {
        return Math.max(details.getLong(Core.LATEST), millis(nanoTime));
    }

    // Steps of calls.

    /**
     * Begins a call of a thread for the settings with this number, or for any if it is 0, and takes the lock for that unless it is held. It is then if this
     * returns a reply, or that there are other settings.
     *
     * @throws StackOverflowError as {@link #requireStack} does
     */
    long begin(int kind, int caller, long now, long id, long token, int number, boolean isHeld) {
        long at = millis(now);
        long reply = Core.begin(core, at, id, token, caller, kind, number, isHeld);
        if (reply == Core.BUSY) {
            lock.takeLater();
            reply = Core.begin(core, at, id, token, caller, kind, number, true);
        }
        if (reply < 0 && reply != Core.OTHER_SETTINGS) {
            throwBy(reply);
        }
        return reply;
    }

    /** Begins a call in a section that has the lock. */
    long beginWithin(Call<T> call) {
        long id = call.member == null ? 0 : call.member.id;
        long reply = Core.begin(core, millis(call.first), id, call.token(), call.caller, call.kind, 0, true);
        if (reply < 0) {
            throw failure(reply);
        }
        return reply;
    }

    /** Goes on with a call after a report, and takes the lock for that unless it is held. Then it is. */
    long advance(Call<T> call, int report, boolean isHeld) {
        long at = millis(call.now);
        long reply = Core.advance(core, call.progress, at, call.token(), call.caller, report, isHeld);
        if (reply == Core.BUSY) {
            lock.takeLater();
            reply = Core.advance(core, call.progress, at, call.token(), call.caller, report, true);
        }
        if (reply < 0) {
            throwBy(reply);
        }
        return reply;
    }

    /** Lets the lock go that was taken for a call, and throws what a status says. */
    private void throwBy(long status) {
        if (status == Core.TOO_LITTLE_STACK) {
            throw tooLittleStack();
        }
        release();
        throw failure(status);
    }

    private static Error failure(long status) {
        boolean lacks = status == Core.STATUS_OUT_OF_MEMORY;
        return lacks ? new OutOfMemoryError("zuphinka: no memory for a call") : new AssertionError("zuphinka: status " + -status);
    }

    /** Has the name of this thread stored beside its number. */
    void see(int caller) {
        if (names != null) {
            names.see(caller);
        }
    }

    // The settings.

    /** Returns the settings of the moment. It takes no lock. */
    CoreSettings<T> settings() {
        return settings;
    }

    private void setSettings(CoreSettings<T> next, int number) {
        next.number = number;
        details.putInt(Core.SETTINGS, number);
        settings = next;
    }

    /**
     * Goes on with other settings, if the pool still has those that they were made of, and returns whether it had. The journal is cut if they have
     * another text.
     */
    boolean isReconfigured(CoreSettings<T> known, CoreSettings<T> next) {
        boolean isOther = !next.text().equals(known.text());
        if (isOther) {
            journal.require(next);
        }
        return locked(() -> {
            boolean isSame = settings == known;
            if (isSame) {
                use(next, isOther);
            }
            return isSame;
        });
    }

    private void use(CoreSettings<T> next, boolean isOther) {
        if (isOther) {
            journal.reconfigure(next);
        }
        setSettings(next, settings.number + 1);
        work.use(next);
        wakes.wakeMore();
    }

    // The end.

    /** Returns whether the pool was closed. It takes no lock, and needs neither memory nor much stack. */
    boolean isClosed() {
        return isClosed;
    }

    void close() {
        isClosed = true;
    }

    /** Wakes the thread that stores the entries, since the pool is closed. */
    void wakeFlusher() {
        if (flusher != null) {
            flusher.wake();
        }
    }

    /** Returns whether what is freed is to be stored by the call that frees it: the pool is closed. */
    boolean isEnding() {
        return isEnding;
    }

    void beginEnd() {
        isEnding = true;
    }

    /** Has the entries of a closed pool stored that no call stores at once. A thread that cannot be started does not matter to the call. */
    private void flushLater() {
        try {
            if (flusher != null) {
                flusher.start();
            }
        } catch (OutOfMemoryError e) {
            // A later entry starts it.
        }
    }
}
