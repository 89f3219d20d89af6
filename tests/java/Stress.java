import io.github.zuphinka.Counts;
import io.github.zuphinka.Journal;
import io.github.zuphinka.ZuphinkaPool;
import java.nio.file.Path;
import java.time.Duration;
import java.util.ArrayList;
import java.util.List;
import java.util.NoSuchElementException;
import java.util.Queue;
import java.util.Random;
import java.util.concurrent.ConcurrentLinkedQueue;
import java.util.concurrent.atomic.AtomicBoolean;
import java.util.concurrent.atomic.AtomicInteger;
import java.util.concurrent.atomic.AtomicReference;
import java.util.concurrent.locks.LockSupport;
import org.apache.commons.pool2.BasePooledObjectFactory;
import org.apache.commons.pool2.DestroyMode;
import org.apache.commons.pool2.PooledObject;
import org.apache.commons.pool2.impl.AbandonedConfig;
import org.apache.commons.pool2.impl.DefaultPooledObject;
import org.apache.commons.pool2.impl.GenericObjectPoolConfig;

/**
 * Eight threads make random calls of one pool, over a factory that fails at random in every method: no object has two holders, none is used
 * once it is destroyed, none is destroyed twice, and none is lost.
 *
 * <p>{@code Stress SEED MILLIS FOLDER [abandoned] [bare]} writes the segments of the journal to the folder. {@code abandoned}: threads forget
 * objects, and the pool takes them back; {@code bare}: the factory has no hooks for activation and passivation.
 */
public final class Stress {
    private static final int THREADS = 8;
    private static final int MOST = 4;
    /** One call of the factory in this number fails. */
    private static final int FAILING = 40;

    private static final Queue<String> FAULTS = new ConcurrentLinkedQueue<>();

    private static void fault(String what) {
        if (FAULTS.size() < 20) {
            FAULTS.add(what);
        }
    }

    /** An object that notices who has it. */
    static final class Item {
        final AtomicReference<Thread> holder = new AtomicReference<>();
        final AtomicBoolean isDestroyed = new AtomicBoolean();
        /** It was taken from its holder, who may not have noticed. */
        volatile boolean isReclaimed;
        volatile boolean isActive;
        volatile boolean isTested;
    }

    /** A failure that is meant. */
    private static final class Meant extends Exception {
        private static final long serialVersionUID = 1;

        Meant() {
            super("meant", null, false, false);
        }
    }

    /** A factory that fails at random, without hooks of its own for activation and passivation. */
    static class Items extends BasePooledObjectFactory<Item> {
        final List<Item> made = new ArrayList<>();
        private final AtomicInteger alive = new AtomicInteger();
        private final int mostAlive;
        private final ThreadLocal<Random> random;

        Items(long seed, int mostAlive) {
            this.mostAlive = mostAlive;
            AtomicInteger number = new AtomicInteger();
            random = ThreadLocal.withInitial(() -> new Random(seed + 1000L * number.incrementAndGet()));
        }

        final void maybeFail() throws Exception {
            int chance = random.get().nextInt(2 * FAILING);
            if (chance == 0) {
                throw new Meant();
            }
            if (chance == 1) {
                throw new IllegalArgumentException("meant");
            }
        }

        @Override
        public Item create() throws Exception {
            maybeFail();
            if (alive.incrementAndGet() > mostAlive) {
                fault("too many objects at once");
            }
            Item item = new Item();
            synchronized (made) {
                made.add(item);
            }
            return item;
        }

        @Override
        public PooledObject<Item> wrap(Item item) {
            return new DefaultPooledObject<>(item);
        }

        /** Returns an object that is neither destroyed nor held. */
        final Item free(PooledObject<Item> pooled, String what) {
            Item item = pooled.getObject();
            if (item.isDestroyed.get()) {
                fault(what + " of a destroyed object");
            }
            if (item.holder.get() != null && !item.isReclaimed) {
                fault(what + " of an object that has a holder");
            }
            return item;
        }

        @Override
        public boolean validateObject(PooledObject<Item> pooled) {
            Item item = free(pooled, "validation");
            int chance = random.get().nextInt(3 * FAILING);
            if (chance == 0) {
                throw new IllegalArgumentException("meant");
            }
            item.isTested = chance > 2;
            return item.isTested;
        }

        @Override
        public void destroyObject(PooledObject<Item> pooled, DestroyMode mode) throws Exception {
            pooled.getObject().isReclaimed |= mode == DestroyMode.ABANDONED;
            destroyObject(pooled);
        }

        @Override
        public void destroyObject(PooledObject<Item> pooled) throws Exception {
            Item item = pooled.getObject();
            if (item.holder.get() != null && !item.isReclaimed) {
                fault("destruction of an object that has a holder");
            }
            if (item.isDestroyed.getAndSet(true)) {
                fault("an object is destroyed twice");
            }
            alive.decrementAndGet();
            maybeFail();
        }
    }

    /** The same with hooks. */
    static final class HookedItems extends Items {
        HookedItems(long seed, int mostAlive) {
            super(seed, mostAlive);
        }

        @Override
        public void activateObject(PooledObject<Item> pooled) throws Exception {
            Item item = free(pooled, "activation");
            maybeFail();
            item.isActive = true;
        }

        @Override
        public void passivateObject(PooledObject<Item> pooled) throws Exception {
            Item item = free(pooled, "passivation");
            maybeFail();
            item.isActive = false;
        }
    }

    private final GenericObjectPoolConfig<Item> config;
    private final boolean isForgetful;
    private final Items items;
    private final ZuphinkaPool<Item> pool;

    private Stress(long seed, Journal journal, boolean isForgetful, boolean isHooked) {
        config = config(new Random(seed));
        this.isForgetful = isForgetful;
        // A reclaimed object loses its place before it is destroyed.
        int mostAlive = isForgetful ? Integer.MAX_VALUE : config.getMaxTotal();
        items = isHooked ? new HookedItems(seed, mostAlive) : new Items(seed, mostAlive);
        pool = new ZuphinkaPool<>(items, config, isForgetful ? abandoned() : null, journal);
    }

    private static GenericObjectPoolConfig<Item> config(Random random) {
        GenericObjectPoolConfig<Item> config = new GenericObjectPoolConfig<>();
        config.setMaxTotal(1 + random.nextInt(MOST));
        config.setMaxIdle(random.nextInt(MOST));
        config.setMinIdle(random.nextInt(3));
        config.setLifo(random.nextBoolean());
        config.setTestOnBorrow(random.nextBoolean());
        config.setTestOnCreate(random.nextBoolean());
        config.setTestOnReturn(random.nextBoolean());
        config.setTestWhileIdle(random.nextBoolean());
        config.setMaxWait(Duration.ofMillis(random.nextBoolean() ? -1 : random.nextInt(4)));
        config.setMinEvictableIdleTime(Duration.ofMillis(random.nextInt(4)));
        config.setTimeBetweenEvictionRuns(Duration.ofMillis(1 + random.nextInt(5)));
        config.setJmxEnabled(random.nextBoolean());
        return config;
    }

    private static AbandonedConfig abandoned() {
        AbandonedConfig abandoned = new AbandonedConfig();
        abandoned.setRemoveAbandonedOnBorrow(true);
        abandoned.setRemoveAbandonedOnMaintenance(true);
        abandoned.setRemoveAbandonedTimeout(Duration.ofMillis(30));
        abandoned.setUseUsageTracking(true);
        return abandoned;
    }

    /** Makes random calls until a time. */
    private void play(Random random, long until) {
        while (System.nanoTime() < until) {
            try {
                act(random);
            } catch (NoSuchElementException e) {
                // None was to be had, or a new one failed.
            } catch (InterruptedException e) {
                if (Thread.interrupted()) {
                    fault("an interrupt that is still set");
                }
            } catch (Meant e) {
                // The factory failed.
            } catch (IllegalArgumentException e) {
                if (!"meant".equals(e.getMessage())) {
                    fault(e.toString());
                }
            } catch (Throwable e) {
                fault(e.toString());
            }
        }
    }

    private void act(Random random) throws Exception {
        switch (random.nextInt(60)) {
            case 0:
                pool.addObject();
                break;
            case 1:
                pool.evict();
                break;
            case 2:
                pool.preparePool();
                break;
            case 3:
                pool.clear();
                break;
            case 4:
                Thread.currentThread().interrupt();
                try {
                    use(random);
                } finally {
                    Thread.interrupted();
                }
                break;
            default:
                use(random);
        }
    }

    private void use(Random random) throws Exception {
        Item item = borrow(random);
        if (!item.holder.compareAndSet(null, Thread.currentThread())) {
            fault("an object is lent to two holders");
        }
        look(item);
        if (random.nextInt(8) == 0) {
            LockSupport.parkNanos(random.nextInt(200_000));
        }
        if (random.nextInt(6) == 0) {
            pool.use(item);
        }
        if (isForgetful && random.nextInt(300) == 0) {
            return;
        }
        item.isTested = false;
        item.holder.set(null);
        if (random.nextInt(20) == 0) {
            pool.invalidateObject(item);
        } else {
            pool.returnObject(item);
        }
    }

    private Item borrow(Random random) throws Exception {
        try {
            return random.nextInt(4) == 0 ? borrowWithin(random.nextInt(30)) : pool.borrowObject();
        } catch (IllegalStateException e) {
            if (e.getMessage().startsWith("Journal full")) {
                throw new NoSuchElementException("Another thread stores a segment for longer than a borrow waits");
            }
            throw e;
        }
    }

    private Item borrowWithin(long millis) throws Exception {
        long begun = System.nanoTime();
        try {
            return pool.borrowObject(Duration.ofMillis(millis));
        } catch (NoSuchElementException e) {
            if (e.getMessage().startsWith("Timeout") && System.nanoTime() - begun < millis * 1_000_000) {
                fault("a borrow timed out before its time");
            }
            throw e;
        }
    }

    /** Looks at an object that was just lent. */
    private void look(Item item) {
        if (item.isDestroyed.get() && !item.isReclaimed) {
            fault("a destroyed object is lent");
        }
        if (config.getTestOnBorrow() && !item.isTested) {
            fault("an object is lent without a test");
        }
        if (items instanceof HookedItems && !item.isActive) {
            fault("an object is lent without its activation");
        }
    }

    /** Closes the pool, and looks at what is left. */
    private void finish() {
        pool.close();
        Counts counts = pool.getCounts();
        if (counts.idle() != 0 || counts.reserved() != 0 || counts.lent() > config.getMaxTotal()) {
            fault("at the end " + counts.idle() + " idle, " + counts.lent() + " lent, " + counts.reserved() + " reserved");
        }
        if (!isForgetful && counts.lent() != 0) {
            fault(counts.lent() + " are lent at the end");
        }
        if (counts.created() != counts.lent() + counts.destroyed() + counts.reclaimed()) {
            fault("an object is lost");
        }
        long alive = items.made.stream().filter(item -> !item.isDestroyed.get()).count();
        if (alive != counts.lent()) {
            fault(alive + " objects were not destroyed, but " + counts.lent() + " are lent");
        }
    }

    public static void main(String[] words) throws Exception {
        long seed = Long.parseLong(words[0]);
        long millis = Long.parseLong(words[1]);
        List<String> modes = List.of(words).subList(3, words.length);
        Journal journal = Journal.inFolder(Path.of(words[2])).limit(2_000);
        Stress stress = new Stress(seed, journal, modes.contains("abandoned"), !modes.contains("bare"));
        long until = System.nanoTime() + millis * 1_000_000;
        List<Thread> threads = new ArrayList<>();
        for (int number = 0; number < THREADS; number++) {
            Random own = new Random(seed + number);
            threads.add(new Thread(() -> stress.play(own, until)));
        }
        threads.forEach(Thread::start);
        for (Thread thread : threads) {
            thread.join();
        }
        stress.finish();
        FAULTS.forEach(System.out::println);
        System.out.println((FAULTS.isEmpty() ? "1 passed, 0" : "0 passed, " + FAULTS.size()) + " failed");
    }
}
