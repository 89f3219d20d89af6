package io.github.zuphinka;

import java.lang.ref.WeakReference;
import java.time.Duration;
import java.util.concurrent.TimeUnit;
import java.util.concurrent.locks.LockSupport;

/**
 * Has the entries of a pool stored within some time after they were made: by a daemon thread, without the pool's lock, and when the virtual machine
 * exits. The thread ends once the pool is closed, or no longer used. It begins again for entries that a closed pool makes.
 */
final class Flusher {
    /** For how long an exit waits at most for another thread that stores something. */
    private static final long LONGEST_EXIT = TimeUnit.SECONDS.toNanos(10);

    private final WeakReference<Storing<?>> storing;
    private final WeakReference<ClassLoader> context;
    private final long pauseNanos;
    private final Thread hook = Maintenance.thread(this::exit, "zuphinka-exit");
    private volatile boolean isWoken;
    /** Null: it has ended, or does after one more round. */
    private Thread thread;

    Flusher(Storing<?> storing, Duration pause, WeakReference<ClassLoader> context) {
        this.storing = new WeakReference<>(storing);
        this.context = context;
        pauseNanos = Maintenance.nanos(pause);
    }

    /** Starts the thread, if it does not run. */
    synchronized void start() {
        if (thread == null) {
            Thread next = Maintenance.thread(this::run, "zuphinka-journal");
            isWoken = false;
            next.start();
            thread = next;
            hook(() -> Runtime.getRuntime().addShutdownHook(hook));
        }
    }

    /** Has the thread look at once whether it is to end. */
    synchronized void wake() {
        isWoken = true;
        LockSupport.unpark(thread);
    }

    private void run() {
        boolean isLast;
        do {
            Maintenance.pause(pauseNanos, () -> isWoken);
            isLast = isLastRound();
            flush(Long.MAX_VALUE);
        } while (!isLast);
        end();
    }

    /** Returns whether the thread ends after this round. From now on another one begins for what the pool does later. */
    private synchronized boolean isLastRound() {
        Storing<?> kept = storing.get();
        boolean isLast = kept == null || kept.isClosed();
        thread = isLast ? null : thread;
        return isLast;
    }

    private synchronized void end() {
        if (thread == null) {
            hook(() -> Runtime.getRuntime().removeShutdownHook(hook));
        }
    }

    private void exit() {
        flush(LONGEST_EXIT);
    }

    /** Stores all entries, with the class loader of the context in which the pool was made: the sink may be the user's. */
    private void flush(long longestNanos) {
        Storing<?> kept = storing.get();
        if (kept != null) {
            Thread.currentThread().setContextClassLoader(context.get());
            kept.flushQuietly(longestNanos);
            Thread.currentThread().setContextClassLoader(null);
        }
    }

    /** Adds or removes the hook. It stays as it is once the virtual machine exits. */
    private static void hook(Runnable change) {
        try {
            change.run();
        } catch (IllegalStateException | IllegalArgumentException e) {
            // It exits, or has the hook.
        }
    }
}
