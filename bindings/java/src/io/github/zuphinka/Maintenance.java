package io.github.zuphinka;

import java.lang.ref.WeakReference;
import java.time.Duration;
import java.util.List;
import java.util.concurrent.TimeUnit;
import java.util.concurrent.locks.LockSupport;
import java.util.function.BooleanSupplier;

/**
 * A daemon thread that maintains a pool from time to time. It ends with the pool: when that is closed, or no longer used. It is never interrupted,
 * since an interrupt would close each channel that the factory uses meanwhile.
 */
final class Maintenance implements Runnable {
    /** For how long to wait for the end of such threads at least and at most: all times are settings, some of more nanoseconds than a number has. */
    private static final Duration SHORTEST_END = Duration.ofMillis(1);
    private static final Duration LONGEST_END = Duration.ofDays(1);

    private final WeakReference<ZuphinkaPool<?>> pool;
    private final WeakReference<ClassLoader> context;
    private final Round round;
    final Duration pause;
    private final long pauseNanos;
    private final Thread thread;
    private volatile boolean isStopped;

    /** What tells such a thread from others. */
    private static final class Maintainer extends Thread {
        Maintainer(Runnable run, String name) {
            super(run, name);
        }
    }

    /** What the thread does for the pool from time to time. */
    interface Round {
        void run(ZuphinkaPool<?> pool) throws Exception;
    }

    private Maintenance(ZuphinkaPool<?> pool, Duration pause, WeakReference<ClassLoader> context, String name, Round round) {
        this.pool = new WeakReference<>(pool);
        this.context = context;
        this.round = round;
        this.pause = pause;
        pauseNanos = nanos(pause);
        thread = thread(this, name);
    }

    /** Returns a daemon thread of a pool, which keeps no class loader. */
    static Thread thread(Runnable run, String name) {
        Thread made = new Maintainer(run, name);
        made.setDaemon(true);
        made.setContextClassLoader(null);
        return made;
    }

    /** Returns the nanoseconds of a time, or no limit for one that is very long. */
    static long nanos(Duration time) {
        return time.getSeconds() >= TimeUnit.DAYS.toSeconds(10_000) ? Long.MAX_VALUE : Math.max(1, time.toNanos());
    }

    /** Starts a thread that maintains the pool. */
    static Maintenance start(ZuphinkaPool<?> pool, Duration pause, WeakReference<ClassLoader> context) {
        return start(pool, pause, context, "zuphinka-maintenance", ZuphinkaPool::maintain);
    }

    /** Starts a thread with a name, which has a class loader as that of its context in each round. It first waits for the pause. */
    static Maintenance start(ZuphinkaPool<?> pool, Duration pause, WeakReference<ClassLoader> context, String name, Round round) {
        Maintenance maintenance = new Maintenance(pool, pause, context, name, round);
        maintenance.thread.start();
        return maintenance;
    }

    /** Returns whether the current thread is one of a pool. */
    static boolean isCurrent() {
        return Thread.currentThread() instanceof Maintainer;
    }

    @Override
    public void run() {
        do {
            pause(pauseNanos, () -> isStopped);
        } while (!isStopped && maintainOnce());
    }

    /** Pauses between two rounds, or until the thread is unparked and is to go on. It needs no memory. */
    static void pause(long nanos, BooleanSupplier isOver) {
        long begun = System.nanoTime();
        for (long left = nanos; left > 0 && !isOver.getAsBoolean(); left = nanos - (System.nanoTime() - begun)) {
            LockSupport.parkNanos(isOver, left);
            Thread.interrupted(); // the factory may have interrupted the thread, which then cannot pause
        }
    }

    /** Maintains the pool, and returns whether it is still open. What the factory throws, an error too, is passed to the pool and ends the round alone. */
    private boolean maintainOnce() {
        ZuphinkaPool<?> kept = pool.get();
        if (kept == null || kept.isClosed()) {
            return false;
        }
        thread.setContextClassLoader(context.get());
        try {
            round.run(kept);
        } catch (Exception | Error e) {
            if (!kept.isClosed()) {
                kept.swallow(e);
            }
        } finally {
            thread.setContextClassLoader(null);
        }
        return true;
    }

    /** Ends the thread after the round in which it is. */
    void stop() {
        isStopped = true;
        LockSupport.unpark(thread);
    }

    boolean isOver() {
        return !thread.isAlive();
    }

    /**
     * Waits for the ends of threads, up to a time for all of them: a millisecond at least, and a day at most. One of them waits for none, since another
     * may wait for it.
     */
    static void await(List<Maintenance> ending, Duration longest) {
        if (ending.stream().anyMatch(each -> each.thread == Thread.currentThread())) {
            return;
        }
        long begun = System.nanoTime();
        Duration bounded = longest.compareTo(SHORTEST_END) < 0 ? SHORTEST_END : longest.compareTo(LONGEST_END) > 0 ? LONGEST_END : longest;
        long nanos = bounded.toNanos();
        try {
            for (Maintenance each : ending) {
                TimeUnit.NANOSECONDS.timedJoin(each.thread, nanos - (System.nanoTime() - begun));
            }
        } catch (InterruptedException e) {
            Thread.currentThread().interrupt();
        }
    }
}
