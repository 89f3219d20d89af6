import io.github.zuphinka.ZuphinkaPool;
import java.util.Arrays;
import java.util.concurrent.locks.LockSupport;
import org.apache.commons.pool2.BasePooledObjectFactory;
import org.apache.commons.pool2.ObjectPool;
import org.apache.commons.pool2.PooledObject;
import org.apache.commons.pool2.impl.DefaultPooledObject;
import org.apache.commons.pool2.impl.GenericObjectPool;
import org.apache.commons.pool2.impl.GenericObjectPoolConfig;

/**
 * How long a thread waits for the only object of a pool, which another thread borrows again as soon as it has returned it, for
 * {@code bench/longest_waits}: {@code Waits POOL HOLD WAITS}. POOL is Zuphinka or Commons.
 *
 * <p>The one thread holds the object for HOLD microseconds each time. The other one borrows it WAITS times and returns it at once, with a pause of a
 * millisecond between two waits. Prints the longest wait and the median. Pairs of one thread and three seconds of waits before them warm up the virtual
 * machine, and do not count.
 */
public final class Waits extends BasePooledObjectFactory<Object> {
    private static final int WARM_UP_PAIRS = 50_000;
    /** In nanoseconds. */
    private static final long WARM_UP = 3_000_000_000L;
    /** In microseconds; a longer hold sleeps. */
    private static final long LONGEST_SPIN = 10;
    private static final long PAUSE = 1_000_000;

    private final ObjectPool<Object> pool;
    private final long holdNanos;
    private volatile boolean isOver;

    private Waits(String name, long hold) {
        GenericObjectPoolConfig<Object> config = new GenericObjectPoolConfig<>();
        config.setJmxEnabled(false);
        config.setMaxTotal(1);
        pool = name.equals("Zuphinka") ? new ZuphinkaPool<>(this, config) : new GenericObjectPool<>(this, config);
        holdNanos = hold * 1_000;
    }

    @Override
    public Object create() {
        return new Object();
    }

    @Override
    public PooledObject<Object> wrap(Object object) {
        return new DefaultPooledObject<>(object);
    }

    /** Lets a time pass, asleep or not. */
    private static void pass(long nanos, boolean isAsleep) {
        long end = System.nanoTime() + nanos;
        for (long left = nanos; left > 0; left = end - System.nanoTime()) {
            if (isAsleep) {
                LockSupport.parkNanos(left);
            }
        }
    }

    /** Borrows, holds and returns until the waits are over. */
    private void borrowAgain() {
        try {
            while (!isOver) {
                Object object = pool.borrowObject();
                pass(holdNanos, holdNanos > LONGEST_SPIN * 1_000);
                pool.returnObject(object);
            }
        } catch (Exception e) {
            throw new AssertionError(e);
        }
    }

    /** Waits once for the object. Returns how long it took, in microseconds. */
    private long waitOnce() throws Exception {
        long began = System.nanoTime();
        Object object = pool.borrowObject();
        long waited = System.nanoTime() - began;
        pool.returnObject(object);
        pass(PAUSE, true);
        return waited / 1_000;
    }

    private void warmUp() throws Exception {
        for (int pair = 0; pair < WARM_UP_PAIRS; pair++) {
            pool.returnObject(pool.borrowObject());
        }
    }

    private long[] waits(int number) throws Exception {
        warmUp();
        Thread thread = new Thread(this::borrowAgain);
        thread.start();
        for (long end = System.nanoTime() + WARM_UP; System.nanoTime() - end < 0;) {
            waitOnce();
        }
        long[] times = new long[number];
        for (int wait = 0; wait < number; wait++) {
            times[wait] = waitOnce();
        }
        isOver = true;
        thread.join();
        pool.close();
        Arrays.sort(times);
        return times;
    }

    public static void main(String[] words) throws Exception {
        if (words.length != 3 || !words[0].matches("Zuphinka|Commons")) {
            System.err.println("Waits Zuphinka|Commons HOLD WAITS");
            System.exit(2);
        }
        long[] times = new Waits(words[0], Long.parseLong(words[1])).waits(Integer.parseInt(words[2]));
        System.out.println(times.length + " waits, longest " + times[times.length - 1] + " us, median " + times[times.length / 2] + " us");
    }
}
