package io.github.zuphinka;

import java.util.function.BooleanSupplier;

/** The pauses of a thread before it sleeps: the lock is held for a fraction of a microsecond, and a short loan ends meanwhile. */
final class Pauses {
    static final int PROCESSORS = Runtime.getRuntime().availableProcessors();
    /** How long a thread pauses before it looks again: at first, at most, and in all before it sleeps, in nanoseconds. */
    private static final long FIRST = 250;
    private static final long LONGEST = 10_000;
    private static final long ALL = 50_000;
    /** The first pause for the lock: a thread that has it is faster the more sections it makes one after the other, since what it needs is in its cache. */
    private static final long FIRST_FOR_LOCK = 2_000;

    private Pauses() {}

    /** Has the class initialized, which would fail for good on a full heap. */
    static void load() {}

    /** Pauses while a condition is true, for some nanoseconds at most, and not at all on one processor. */
    static void pauseWhile(BooleanSupplier isToWait, long longestNanos) {
        isOver(isToWait, System.nanoTime(), longestNanos, FIRST);
    }

    /** Pauses for a lock that was just found to be held. Returns whether it was taken then. */
    static boolean isTakenMeanwhile(BooleanSupplier isHeld) {
        return PROCESSORS > 1 && isOver(isHeld, pauseUntil(System.nanoTime() + FIRST_FOR_LOCK), ALL, 2 * FIRST_FOR_LOCK);
    }

    /** Pauses while a condition is true, from this time of {@link System#nanoTime} on, and returns whether it was found to be false. */
    private static boolean isOver(BooleanSupplier isToWait, long begun, long longestNanos, long first) {
        long end = begun + (PROCESSORS > 1 ? Math.min(ALL, longestNanos) : 0);
        long now = begun;
        for (long pause = first; now - end < 0; pause = Math.min(2 * pause, LONGEST)) {
            if (!isToWait.getAsBoolean()) {
                return true;
            }
            now = pauseUntil(now + Math.min(pause, end - now));
        }
        return false;
    }

    /** Pauses until this time of {@link System#nanoTime} is over, and returns what it is then. */
    private static long pauseUntil(long until) {
        for (;;) {
            Thread.onSpinWait();
            long now = System.nanoTime();
            if (now - until >= 0) {
                return now;
            }
        }
    }
}
