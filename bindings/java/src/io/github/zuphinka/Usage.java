package io.github.zuphinka;

/** What a pool counts besides the counts of its core. */
final class Usage {
    final long borrowed;
    final long returned;
    final long failedOnBorrow;
    final long waitedNanos;
    final long longestWaitNanos;
    final int waiters;

    Usage(long borrowed, long returned, long failedOnBorrow, long waitedNanos, long longestWaitNanos, int waiters) {
        this.borrowed = borrowed;
        this.returned = returned;
        this.failedOnBorrow = failedOnBorrow;
        this.waitedNanos = waitedNanos;
        this.longestWaitNanos = longestWaitNanos;
        this.waiters = waiters;
    }
}
