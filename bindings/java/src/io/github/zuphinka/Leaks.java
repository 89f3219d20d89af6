package io.github.zuphinka;

import java.lang.ref.WeakReference;
import java.time.Duration;
import java.util.concurrent.TimeUnit;
import java.util.function.Consumer;

/** Looks for loans of a pool that last longer than a limit, by a daemon thread, and tells each once. It ends with the pool. */
final class Leaks<T> {
    private static final long SHORTEST_PAUSE = TimeUnit.MILLISECONDS.toNanos(1);
    private static final long LONGEST_PAUSE = TimeUnit.SECONDS.toNanos(1);
    /** How many times it looks within the limit. */
    private static final long LOOKS = 10;

    private final ZuphinkaPool<T> pool;
    private final Objects<T> objects;
    private final LockedPool<T> lockedPool;
    private final Numbers numbers;
    private final WeakReference<ClassLoader> context;
    private volatile Duration threshold = Duration.ZERO;
    private volatile boolean isOn;
    private volatile boolean hasStacks;
    private volatile Consumer<Leak> listener = leak -> {};
    /** Null: the limit is 0 or negative, or the pool is closed. */
    private Maintenance thread;

    Leaks(ZuphinkaPool<T> pool, Objects<T> objects, LockedPool<T> lockedPool, Numbers numbers, WeakReference<ClassLoader> context) {
        this.pool = pool;
        this.objects = objects;
        this.lockedPool = lockedPool;
        this.numbers = numbers;
        this.context = context;
    }

    Duration threshold() {
        return threshold;
    }

    boolean hasStacks() {
        return hasStacks;
    }

    void setStacks(boolean value) {
        hasStacks = value;
    }

    void setListener(Consumer<Leak> value) {
        listener = value;
    }

    synchronized void setThreshold(Duration value) {
        stop();
        threshold = value;
        isOn = !value.isNegative() && !value.isZero();
        if (isOn && !pool.isClosed()) {
            long nanos = Math.min(LONGEST_PAUSE, Math.max(SHORTEST_PAUSE, Maintenance.nanos(value) / LOOKS));
            thread = Maintenance.start(pool, Duration.ofNanos(nanos), context, "zuphinka-leaks", ZuphinkaPool::findLeaks);
        }
    }

    synchronized void stop() {
        if (thread != null) {
            thread.stop();
            thread = null;
        }
    }

    /** Notes that this thread has borrowed an object. If there is no memory or stack for that, the loan is not told. */
    void noteLoan(Member<T> member) {
        if (!isOn) {
            return;
        }
        try {
            member.lender = new Lender(member, hasStacks);
        } catch (OutOfMemoryError | StackOverflowError e) {
            member.lender = null;
        }
    }

    /** Forgets who has borrowed an object, which is about to be returned. */
    static void forget(Member<?> member) {
        if (member.lender != null) {
            member.lender = null;
        }
    }

    /** Tells each loan that lasts longer than the limit, and was not told. */
    void find() {
        long limit = Maintenance.nanos(threshold);
        for (Member<T> member : objects.all()) {
            Lender lender = member.lender;
            long nanos = lender == null ? 0 : System.nanoTime() - lender.lentAt;
            if (nanos > limit && !lender.isTold && numbers.isLent(member, lender.loan)) {
                lender.isTold = true;
                tell(new Leak(lockedPool.name, member.id, lender, Duration.ofNanos(nanos)));
            }
        }
    }

    private void tell(Leak leak) {
        try {
            listener.accept(leak);
        } catch (Exception | Error e) {
            pool.swallow(e);
        }
    }
}
