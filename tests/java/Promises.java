import java.time.Duration;
import java.util.ArrayList;
import java.util.List;
import java.util.Map;
import java.util.NoSuchElementException;
import java.util.Queue;
import java.util.Random;
import java.util.Set;
import java.util.SplittableRandom;
import java.util.TreeMap;
import java.util.TreeSet;
import java.util.concurrent.ConcurrentLinkedQueue;
import java.util.concurrent.ConcurrentSkipListSet;
import java.util.concurrent.TimeUnit;
import java.util.concurrent.atomic.AtomicBoolean;
import java.util.concurrent.atomic.AtomicInteger;
import java.util.concurrent.atomic.AtomicLong;
import java.util.concurrent.atomic.AtomicReference;
import java.util.concurrent.locks.LockSupport;
import org.apache.commons.pool2.BasePooledObjectFactory;
import org.apache.commons.pool2.DestroyMode;
import org.apache.commons.pool2.PooledObject;
import org.apache.commons.pool2.impl.AbandonedConfig;
import org.apache.commons.pool2.impl.DefaultPooledObject;
import org.apache.commons.pool2.impl.GenericObjectPoolConfig;

/**
 * Runs of six threads that make random calls of one pool with random settings, over a factory that fails at random, while they are interrupted at
 * random. Each notices which promises of a pool are broken: those that Commons Pool gives, and ZuphinkaPool keeps.
 *
 * <p>{@code Promises zuphinka|commons-pool RUNS MILLIS LONGEST} makes runs with fixed seeds. Each calls for MILLIS milliseconds, and waits for
 * LONGEST milliseconds at most for the end of each thread and object. It prints how many runs broke a promise, and in how many of them each was
 * broken. A run of ZuphinkaPool that breaks one counts as failed.
 */
public final class Promises extends Expectations {
    private static final int THREADS = 6;
    /** Of so many calls of the factory, this number fails, and this number takes longer. */
    private static final int CHANCES = 1_000;
    private static final int FAILING = 20;
    private static final int SLOW = 9;

    private static final String ONE_HOLDER = "an object with two holders";
    private static final String LIMIT = "more than maxTotal objects alive";
    private static final String LENT = "an object destroyed or readied while it is lent";
    private static final String ONE_END = "an object destroyed twice";
    private static final String USED = "a destroyed object used or lent";
    private static final String LEFT = "an object alive after the close";
    private static final String COUNTED = "an object counted after the close";
    private static final String THROWN = "a call that throws what it does not list";
    private static final String ENDLESS = "a call that does not end";

    /** An object that notices who has it. All are equal, as the objects of a pool may be. */
    private static final class Item {
        final AtomicReference<Thread> holder = new AtomicReference<>();
        final AtomicInteger ends = new AtomicInteger();
        /** It was taken from its holder, who may not have noticed. */
        volatile boolean isReclaimed;

        boolean isLent() {
            return holder.get() != null && !isReclaimed;
        }

        @Override
        public boolean equals(Object other) {
            return other instanceof Item;
        }

        @Override
        public int hashCode() {
            return 1;
        }
    }

    /** A failure that is meant. */
    private static final class Meant extends Exception {
        private static final long serialVersionUID = 1;

        Meant() {
            super("meant", null, false, false);
        }
    }

    /** A failure that is meant, and that a method need not list. */
    private static final class MeantToo extends RuntimeException {
        private static final long serialVersionUID = 1;

        MeantToo() {
            super("meant", null, false, false);
        }
    }

    /** A factory that may fail at random, without hooks of its own for activation and passivation. */
    private class Items extends BasePooledObjectFactory<Item> {
        final AtomicInteger alive = new AtomicInteger();
        private final ThreadLocal<Random> random;

        Items(SplittableRandom seeds) {
            random = ThreadLocal.withInitial(() -> {
                synchronized (seeds) {
                    return new Random(seeds.nextLong());
                }
            });
        }

        final void maybeFail() throws Exception {
            int chance = isFailing ? random.get().nextInt(CHANCES) : CHANCES;
            if (chance < FAILING) {
                throw chance % 2 == 0 ? new Meant() : new MeantToo();
            }
            if (chance < FAILING + SLOW) {
                LockSupport.parkNanos(100_000);
            }
        }

        @Override
        public Item create() throws Exception {
            maybeFail();
            // A reclaimed object loses its place before it is destroyed.
            if (alive.incrementAndGet() > config.getMaxTotal() && !isForgetful) {
                broken.add(LIMIT);
            }
            return new Item();
        }

        @Override
        public PooledObject<Item> wrap(Item item) {
            return new DefaultPooledObject<>(item);
        }

        final void look(PooledObject<Item> pooled) {
            if (pooled.getObject().ends.get() > 0) {
                broken.add(USED);
            }
            if (pooled.getObject().isLent()) {
                broken.add(LENT);
            }
        }

        @Override
        public boolean validateObject(PooledObject<Item> pooled) {
            look(pooled);
            return !isFailing || random.get().nextInt(CHANCES) >= FAILING;
        }

        @Override
        public void destroyObject(PooledObject<Item> pooled, DestroyMode mode) throws Exception {
            pooled.getObject().isReclaimed |= mode == DestroyMode.ABANDONED;
            destroyObject(pooled);
        }

        @Override
        public void destroyObject(PooledObject<Item> pooled) throws Exception {
            Item item = pooled.getObject();
            if (item.ends.incrementAndGet() > 1) {
                broken.add(ONE_END);
            }
            if (item.isLent()) {
                broken.add(LENT);
            }
            alive.decrementAndGet();
            maybeFail();
        }
    }

    /** The same with hooks. */
    private final class HookedItems extends Items {
        HookedItems(SplittableRandom seeds) {
            super(seeds);
        }

        @Override
        public void activateObject(PooledObject<Item> pooled) throws Exception {
            look(pooled);
            maybeFail();
        }

        @Override
        public void passivateObject(PooledObject<Item> pooled) throws Exception {
            look(pooled);
            maybeFail();
        }
    }

    private final long longestMillis;
    private final GenericObjectPoolConfig<Item> config;
    private final boolean isFailing;
    private final boolean isForgetful;
    private final boolean closesFirst;
    private final Items items;
    private final EitherPool<Item> pool;
    private final Random random;
    private final List<Thread> threads = new ArrayList<>();
    private final Queue<Item> forgotten = new ConcurrentLinkedQueue<>();
    private final Set<String> broken = new ConcurrentSkipListSet<>();
    private final AtomicBoolean isOver = new AtomicBoolean();
    private final AtomicLong calls = new AtomicLong();

    private Promises(String library, SplittableRandom seeds, long longestMillis) {
        this.longestMillis = longestMillis;
        random = new Random(seeds.nextLong());
        config = config(random);
        config.setEvictorShutdownTimeout(Duration.ofMillis(longestMillis));
        isFailing = random.nextInt(3) > 0;
        isForgetful = random.nextInt(3) == 0;
        closesFirst = random.nextBoolean();
        items = random.nextBoolean() ? new HookedItems(seeds.split()) : new Items(seeds.split());
        pool = EitherPool.of(library, items, config, isForgetful ? abandoned(random) : null);
        for (int number = 0; number < THREADS; number++) {
            Random own = new Random(seeds.nextLong());
            threads.add(new Thread(() -> play(own)));
        }
    }

    private static <E> E one(Random random, List<E> all) {
        return all.get(random.nextInt(all.size()));
    }

    private static GenericObjectPoolConfig<Item> config(Random random) {
        GenericObjectPoolConfig<Item> config = new GenericObjectPoolConfig<>();
        config.setJmxEnabled(random.nextInt(8) == 0);
        config.setMaxTotal(1 + random.nextInt(5));
        config.setMaxIdle(random.nextInt(6));
        config.setMinIdle(random.nextInt(3));
        config.setLifo(random.nextBoolean());
        config.setBlockWhenExhausted(random.nextInt(4) > 0);
        config.setMaxWait(Duration.ofMillis(random.nextInt(3) == 0 ? -1 : random.nextInt(6)));
        config.setTestOnBorrow(random.nextInt(3) == 0);
        config.setTestOnCreate(random.nextInt(4) == 0);
        config.setTestOnReturn(random.nextInt(3) == 0);
        config.setTestWhileIdle(random.nextBoolean());
        config.setNumTestsPerEvictionRun(one(random, List.of(3, 1, -1, -2, 10)));
        config.setMinEvictableIdleTime(Duration.ofMillis(one(random, List.of(-1, 1, 5, 1_800_000))));
        config.setSoftMinEvictableIdleTime(Duration.ofMillis(one(random, List.of(-1, 2))));
        config.setTimeBetweenEvictionRuns(Duration.ofMillis(random.nextBoolean() ? -1 : 1 + random.nextInt(5)));
        return config;
    }

    private static AbandonedConfig abandoned(Random random) {
        AbandonedConfig abandoned = new AbandonedConfig();
        abandoned.setRemoveAbandonedOnBorrow(true);
        abandoned.setRemoveAbandonedOnMaintenance(random.nextBoolean());
        abandoned.setRemoveAbandonedTimeout(Duration.ofMillis(20));
        return abandoned;
    }

    /** Makes random calls until the run is over. */
    private void play(Random own) {
        while (!isOver.get()) {
            calls.incrementAndGet();
            try {
                act(own);
            } catch (NoSuchElementException | InterruptedException | Meant | MeantToo e) {
                // None was to be had, or the factory failed.
            } catch (IllegalStateException e) {
                if (!isOver.get()) {
                    broken.add(THROWN + ", " + e);
                }
            } catch (Throwable e) {
                broken.add(THROWN + ", " + e);
            }
        }
    }

    private void act(Random own) throws Exception {
        switch (own.nextInt(60)) {
            case 0:
                pool.calls.addObject();
                break;
            case 1:
                pool.evict();
                break;
            case 2:
                pool.prepare();
                break;
            case 3:
                pool.calls.clear();
                break;
            case 4:
                pool.calls.getNumIdle();
                pool.calls.getNumActive();
                pool.listed();
                break;
            default:
                lend(own);
        }
    }

    private void lend(Random own) throws Exception {
        Item item = borrow(own);
        if (!item.holder.compareAndSet(null, Thread.currentThread())) {
            broken.add(ONE_HOLDER);
        }
        if (item.ends.get() > 0 && !item.isReclaimed) {
            broken.add(USED);
        }
        if (own.nextInt(8) == 0) {
            LockSupport.parkNanos(own.nextInt(300_000));
        }
        if (own.nextInt(6) == 0) {
            pool.use(item);
        }
        if (isForgetful && own.nextInt(200) == 0) {
            forgotten.add(item);
        } else {
            finish(item, own.nextInt(20) == 0);
        }
    }

    /** Borrows. No borrow waits for ever where objects are forgotten. */
    private Item borrow(Random own) throws Exception {
        boolean isLimited = config.getMaxWaitDuration().isNegative() && (isForgetful || own.nextInt(3) > 0);
        if (own.nextInt(3) == 0) {
            return pool.borrow(Duration.ofMillis(own.nextInt(6)));
        }
        return isLimited ? pool.borrow(Duration.ofMillis(200)) : pool.calls.borrowObject();
    }

    /** Returns or invalidates an object. One that was reclaimed may be refused. */
    private void finish(Item item, boolean isBroken) throws Exception {
        item.holder.set(null);
        try {
            if (isBroken) {
                pool.calls.invalidateObject(item);
            } else {
                pool.calls.returnObject(item);
            }
        } catch (IllegalStateException e) {
            if (!isForgetful) {
                throw e;
            }
        }
    }

    /** Interrupts threads until a time. */
    private void disturb(long until) throws InterruptedException {
        while (System.nanoTime() < until) {
            Thread.sleep(1 + random.nextInt(5));
            if (random.nextInt(4) == 0) {
                one(random, threads).interrupt();
            }
        }
    }

    private void close() {
        try {
            pool.calls.close();
        } catch (RuntimeException e) {
            broken.add(THROWN + ", " + e);
        }
    }

    /** Waits for the ends of all threads. */
    private void join() throws InterruptedException {
        long end = System.nanoTime() + TimeUnit.MILLISECONDS.toNanos(longestMillis);
        for (Thread thread : threads) {
            thread.join(Math.max(1, TimeUnit.NANOSECONDS.toMillis(end - System.nanoTime())));
            if (thread.isAlive()) {
                broken.add(ENDLESS);
            }
        }
    }

    /** Returns what was forgotten. */
    private void remember() throws Exception {
        for (Item item : forgotten) {
            finish(item, false);
        }
        pool.calls.clear();
    }

    /** Looks at what is left of a pool that is closed, once its threads have ended. */
    private void look() throws InterruptedException {
        long end = System.nanoTime() + TimeUnit.MILLISECONDS.toNanos(longestMillis);
        while (items.alive.get() != 0 && System.nanoTime() < end) {
            Thread.sleep(1);
        }
        if (items.alive.get() != 0) {
            broken.add(LEFT);
        }
        if (pool.calls.getNumActive() != 0 || pool.calls.getNumIdle() != 0) {
            broken.add(COUNTED);
        }
    }

    private Promises run(long millis) throws Exception {
        threads.forEach(Thread::start);
        disturb(System.nanoTime() + TimeUnit.MILLISECONDS.toNanos(millis));
        isOver.set(true);
        if (!closesFirst) {
            join();
        }
        close();
        join();
        remember();
        look();
        return this;
    }

    public static void main(String[] words) throws Exception {
        boolean isOurs = words[0].equals("zuphinka");
        int runs = Integer.parseInt(words[1]);
        long calls = 0;
        int bad = 0;
        Map<String, Integer> kinds = new TreeMap<>();
        SplittableRandom seeds = new SplittableRandom(0);
        for (int number = 0; number < runs; number++) {
            Promises run = new Promises(words[0], seeds.split(), Long.parseLong(words[3])).run(Long.parseLong(words[2]));
            calls += run.calls.get();
            bad += run.broken.isEmpty() ? 0 : 1;
            run.broken.forEach(promise -> kinds.merge(promise, 1, Integer::sum));
            if (isOurs) {
                expect("run " + number, Set.of(), new TreeSet<>(run.broken));
            }
        }
        System.out.println(words[0] + ": " + bad + " of " + runs + " runs broke a promise, in " + calls + " calls");
        kinds.forEach((promise, number) -> System.out.println("    " + promise + ": " + number));
        if (isOurs) {
            printCounts();
        }
        System.exit(0); // a thread may still wait in a call that does not end
    }
}
