package io.github.zuphinka;

import java.util.concurrent.atomic.AtomicInteger;

/** The numbers of threads in the journals of all pools. */
final class Callers {
    private static final AtomicInteger NEXT = new AtomicInteger();
    private static final ThreadLocal<Integer> NUMBER = ThreadLocal.withInitial(NEXT::getAndIncrement);

    private Callers() {}

    /** Has the class initialized, which would fail for good on a full stack. */
    static void load() {}

    /** Returns the number of this thread, of 32 bits without a sign. */
    static int number() {
        return NUMBER.get();
    }
}
