package io.github.zuphinka;

/** The thread that has borrowed an object, and where it did. */
final class Lender {
    /** Which of the object's loans it is. */
    final long loan;
    final long caller;
    final String name;
    /** Null if it is not asked for. */
    final Throwable stack;
    /** When the object was lent, by {@link System#nanoTime}. */
    final long lentAt;
    /** Whether the user was told of the loan. The thread that looks for leaks alone has it. */
    boolean isTold;

    /** The current thread has just borrowed an object. */
    Lender(Member<?> member, boolean hasStack) {
        loan = member.loanNumber();
        lentAt = member.usedAt();
        caller = ZuphinkaPool.callerNumber();
        name = Thread.currentThread().getName();
        stack = hasStack ? new Exception("The object was lent here") : null;
    }
}
