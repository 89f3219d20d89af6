package io.github.zuphinka;

import java.time.Duration;

/** The clock of the pools of a test, whose sources read it in place of {@link System#nanoTime}: what that says, and the time that was added. */
public final class TestClock {
    private static volatile long added;

    private TestClock() {}

    public static long nanoTime() {
        return System.nanoTime() + added;
    }

    public static void add(Duration time) {
        added += time.toNanos();
    }
}
