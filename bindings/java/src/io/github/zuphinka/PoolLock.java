package io.github.zuphinka;

import java.lang.invoke.MethodHandles;
import java.lang.invoke.VarHandle;
import java.nio.ByteBuffer;
import java.nio.ByteOrder;
import java.util.concurrent.atomic.AtomicReference;
import java.util.concurrent.locks.LockSupport;
import java.util.concurrent.locks.ReentrantLock;
import java.util.function.BooleanSupplier;

/**
 * The lock of a pool: a word in the memory of its core, so that a native method may take it, too. No thread that has it takes it again. It can be taken
 * without memory.
 */
final class PoolLock {
    private static final VarHandle WORD = MethodHandles.byteBufferViewVarHandle(int[].class, ByteOrder.nativeOrder());
    /** For how many nanoseconds a thread sleeps at most before it looks again: it may miss its wake. */
    private static final long LONGEST_SLEEP = 1_000_000;

    private final ByteBuffer details;
    private final BooleanSupplier isHeld = () -> !hasTaken();
    /** Threads that have paused in vain wait here, until they are the one that sleeps. */
    private final ReentrantLock queue = new ReentrantLock();
    /** The one that is to be woken when the lock is free; null if there is none, or that was done. */
    private final AtomicReference<Thread> sleeper = new AtomicReference<>();

    PoolLock(ByteBuffer details) {
        this.details = details;
        // What these calls load is there then, and needs no memory later.
        sleeper.set(null);
        sleeper.compareAndSet(null, null);
        LockSupport.unpark(null);
    }

    /** Takes it if no thread has it, and returns whether it did. */
    private boolean hasTaken() {
        return (int) WORD.getVolatile(details, Core.LOCK) == 0 && WORD.compareAndSet(details, Core.LOCK, 0, 1);
    }

    void take() {
        if (!hasTaken()) {
            takeLater();
        }
    }

    /** Takes it once it is free. It is held for a fraction of a microsecond, while it takes some to wake a thread: so a thread pauses before it sleeps. */
    void takeLater() {
        if (Pauses.isTakenMeanwhile(isHeld)) {
            return;
        }
        boolean isQueued = hasQueued();
        sleepUntilTaken(isQueued);
        if (isQueued) {
            queue.unlock();
        }
    }

    /** Queues for the sleep, and returns true once that has come; or false on a full heap. */
    private boolean hasQueued() {
        try {
            queue.lock();
            return true;
        } catch (OutOfMemoryError e) {
            return false;
        }
    }

    private void sleepUntilTaken(boolean isQueued) {
        Thread thread = Thread.currentThread();
        boolean isInterrupted = false;
        for (;;) {
            if (isQueued) {
                sleeper.set(thread);
            }
            if (hasTaken()) {
                break;
            }
            LockSupport.parkNanos(LONGEST_SLEEP);
            isInterrupted |= Thread.interrupted(); // it would not sleep again
        }
        sleeper.compareAndSet(thread, null);
        if (isInterrupted) {
            thread.interrupt();
        }
    }

    /** Frees it, and wakes the thread that sleeps. */
    void free() {
        WORD.setRelease(details, Core.LOCK, 0);
        Thread next = sleeper.get();
        if (next != null && sleeper.compareAndSet(next, null)) {
            LockSupport.unpark(next);
        }
    }
}
