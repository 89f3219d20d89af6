package io.github.zuphinka;

import java.util.concurrent.CompletableFuture;

/**
 * How much of its stack a thread must have left for a call of a pool. The virtual machine keeps a part of each stack for itself, by its options: once a
 * thread has no more than that left, its next call ends in an error. A thread fills its stack to find out how much that is.
 */
final class NeededStack {
    /** No section of a call takes a quarter of this. */
    private static final long OF_CALL = 24 * 1024;
    private static final long SIZE = 512 * 1024;
    /** 0: not known yet. */
    private static volatile long bytes;

    private NeededStack() {}

    /** Calls itself until its stack is full. */
    private static final class Diver {
        private long left;

        long dive() {
            try {
                diveOn();
            } catch (StackOverflowError e) {
                // The rest is the virtual machine's.
            }
            return left;
        }

        private void diveOn() {
            left = Core.stackLeft();
            diveOn();
        }
    }

    /** Returns how many bytes must be left. The first call starts a thread, and waits for its end. */
    static long bytes() {
        if (bytes == 0) {
            bytes = OF_CALL + CompletableFuture.supplyAsync(() -> new Diver().dive(), task -> new Thread(null, task, "zuphinka-stack", SIZE).start()).join();
        }
        return bytes;
    }
}
