package io.github.zuphinka;

/** The loans of an object until some moment. */
final class Loans {
    final long count;
    final boolean isLent;
    private final long lentAt;
    private final long returnedAt;

    Loans(long count, boolean isLent, long lentAt, long returnedAt) {
        this.count = count;
        this.isLent = isLent;
        this.lentAt = lentAt;
        this.returnedAt = returnedAt;
    }

    boolean hasReturn() {
        return count > 1 || (count == 1 && !isLent);
    }

    /** Returns when the last loan began, in milliseconds since 1970. */
    long lentMillis() {
        return Moment.instantOf(lentAt).toEpochMilli();
    }

    /** Returns when the last loan that is over ended, in milliseconds since 1970. */
    long returnedMillis() {
        return Moment.instantOf(returnedAt).toEpochMilli();
    }
}
