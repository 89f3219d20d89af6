import io.github.zuphinka.Journal;
import io.github.zuphinka.Segment;
import io.github.zuphinka.ZuphinkaPool;
import java.io.IOException;
import java.lang.management.ManagementFactory;
import java.nio.file.Files;
import java.nio.file.Path;
import java.time.Duration;
import java.util.ArrayList;
import java.util.Arrays;
import java.util.Collections;
import java.util.HashSet;
import java.util.List;
import java.util.NoSuchElementException;
import java.util.Random;
import java.util.Set;
import java.util.concurrent.Callable;
import java.util.concurrent.FutureTask;
import java.util.concurrent.atomic.AtomicBoolean;
import java.util.concurrent.atomic.AtomicInteger;
import java.util.function.BooleanSupplier;
import java.util.function.Consumer;
import java.util.stream.Collectors;
import java.util.stream.Stream;
import org.apache.commons.pool2.BasePooledObjectFactory;
import org.apache.commons.pool2.PooledObject;
import org.apache.commons.pool2.PooledObjectState;
import org.apache.commons.pool2.impl.AbandonedConfig;
import org.apache.commons.pool2.impl.DefaultEvictionPolicy;
import org.apache.commons.pool2.impl.DefaultPooledObject;
import org.apache.commons.pool2.impl.EvictionConfig;
import org.apache.commons.pool2.impl.EvictionPolicy;
import org.apache.commons.pool2.impl.GenericObjectPoolConfig;

/** Settings that change while a pool is used: what later calls do, what stays, and which settings each segment has. Writes journals to a folder. */
public final class Reconfigures extends Expectations {
    private static final int THREADS = 6;
    private static final int ROUNDS = 4_000;
    private static final String EXHAUSTED = "NoSuchElementException: Pool exhausted";

    private Reconfigures() {}

    /** An object that notices who has it, and whether it was destroyed. */
    private static final class Item {
        final AtomicBoolean isHeld = new AtomicBoolean();
        final AtomicBoolean isDestroyed = new AtomicBoolean();
    }

    /** A factory without hooks, which notes what it is asked, and sees whether a wrapper is told of its loan. */
    private static class Bare extends BasePooledObjectFactory<Item> {
        final List<String> asked = Collections.synchronizedList(new ArrayList<>());
        final AtomicInteger alive = new AtomicInteger();
        final AtomicInteger faults = new AtomicInteger();
        volatile boolean isInvalid;

        @Override
        public Item create() {
            alive.incrementAndGet();
            return new Item();
        }

        @Override
        public PooledObject<Item> wrap(Item item) {
            return new DefaultPooledObject<>(item);
        }

        final void note(String what) {
            if (asked.size() < 100) {
                asked.add(what);
            }
        }

        @Override
        public boolean validateObject(PooledObject<Item> pooled) {
            note(pooled.getState() == PooledObjectState.ALLOCATED ? "validate lent" : "validate");
            faults.addAndGet(pooled.getObject().isDestroyed.get() ? 1 : 0);
            return !isInvalid;
        }

        @Override
        public void destroyObject(PooledObject<Item> pooled) {
            alive.decrementAndGet();
            faults.addAndGet(pooled.getObject().isDestroyed.getAndSet(true) ? 1 : 0);
        }

        /** Returns what it was asked since this was last called. */
        String asked() {
            String words = String.join(" ", asked);
            asked.clear();
            return words;
        }
    }

    /** A factory with hooks. */
    private static final class Hooked extends Bare {
        @Override
        public void activateObject(PooledObject<Item> pooled) {
            note("activate");
        }

        @Override
        public void passivateObject(PooledObject<Item> pooled) {
            note("passivate");
        }
    }

    private static GenericObjectPoolConfig<Item> config(int maxTotal) {
        GenericObjectPoolConfig<Item> config = new GenericObjectPoolConfig<>();
        config.setJmxEnabled(false);
        config.setMaxTotal(maxTotal);
        return config;
    }

    private static ZuphinkaPool<Item> pool(Bare factory, int maxTotal) {
        return new ZuphinkaPool<>(factory, config(maxTotal), null, Journal.kept());
    }

    private static List<Item> lend(ZuphinkaPool<Item> pool, int number) throws Exception {
        List<Item> lent = new ArrayList<>();
        while (lent.size() < number) {
            lent.add(pool.borrowObject());
        }
        return lent;
    }

    // Places.

    /** Threads that wait are served by new places. */
    private static void morePlaces(boolean isFair) throws Exception {
        GenericObjectPoolConfig<Item> config = config(1);
        config.setFairness(isFair);
        ZuphinkaPool<Item> pool = new ZuphinkaPool<>(new Bare(), config);
        Item first = pool.borrowObject();
        List<Object> got = whileWaiting(pool, 3, pool::borrowObject, () -> pool.setMaxTotal(4));
        Set<Object> all = new HashSet<>(got);
        all.add(first);
        expect("threads that new places serve", List.of(3, 4), List.of(got.size(), all.size()));
        expect("all are objects", true, all.stream().allMatch(Item.class::isInstance));
        expect("all places are taken", "0 idle, 4 active, 4 created, 0 destroyed", counts(pool));
        pool.setConfig(config(5));
        expect("the fairness is the constructor's", isFair, pool.getFairness());
        pool.close();
    }

    /** With fewer places no object is taken away, and none is made until fewer are present. */
    private static void fewerPlaces() throws Exception {
        Bare factory = new Bare();
        ZuphinkaPool<Item> pool = pool(factory, 4);
        List<Item> lent = lend(pool, 4);
        pool.setMaxTotal(2);
        pool.setBlockWhenExhausted(false);
        expect("all stay", "0 idle, 4 active, 4 created, 0 destroyed", counts(pool));
        expect("none is made", EXHAUSTED, result(pool::borrowObject));
        pool.returnObject(lent.remove(0));
        lent.add(pool.borrowObject());
        expect("a returned one is lent", "0 idle, 4 active, 4 created, 0 destroyed", counts(pool));
        for (int left = 3; left >= 2; left--) {
            pool.invalidateObject(lent.remove(0));
            expect("none is made beside " + left, EXHAUSTED, result(pool::borrowObject));
        }
        pool.invalidateObject(lent.remove(0));
        lent.add(pool.borrowObject());
        expect("one is made", "0 idle, 2 active, 5 created, 3 destroyed", counts(pool));
        expect("no more", EXHAUSTED, result(pool::borrowObject));
        lent.forEach(pool::returnObject);
        pool.close();
        expect("alive", List.of(0, 0), List.of(factory.alive.get(), factory.faults.get()));
    }

    // What later calls do.

    /** Tests are made from the next call on, also of an object that is lent meanwhile, whose wrapper is told of its next loan. */
    private static void tests(Bare factory, String activates, String passivates) throws Exception {
        ZuphinkaPool<Item> pool = pool(factory, 2);
        Item lent = pool.borrowObject();
        factory.asked();
        pool.setTestOnReturn(true);
        pool.returnObject(lent);
        String first = factory.asked();
        expect("a test of a return", true, first.equals("validate" + passivates) || first.equals("validate lent" + passivates));
        pool.setTestOnReturn(false);
        pool.setTestOnBorrow(true);
        pool.returnObject(pool.borrowObject());
        expect("a test of a borrow", activates + "validate lent" + passivates, factory.asked());
        factory.isInvalid = true;
        expect("a new one that fails", "NoSuchElementException: Unable to validate object", result(pool::borrowObject));
        expect("both failed", List.of(2L, 2L), List.of(pool.getDestroyedByBorrowValidationCount(), pool.getDestroyedCount()));
        factory.isInvalid = false;
        factory.asked();
        pool.setTestOnCreate(true);
        pool.returnObject(pool.borrowObject());
        expect("two tests", 2L, Stream.of(factory.asked().split("(?=validate)")).filter(asked -> asked.startsWith("validate")).count());
        pool.setTestOnBorrow(false);
        pool.setTestOnCreate(false);
        pool.returnObject(pool.borrowObject());
        expect("no test", (activates + passivates).trim().replace("  ", " "), factory.asked());
        pool.setTestWhileIdle(true);
        pool.evict();
        expect("a test of an idle one", activates + "validate" + passivates, factory.asked());
        factory.isInvalid = true;
        pool.evict();
        expect("it fails", "0 idle, 0 active, 3 created, 3 destroyed", counts(pool));
        pool.close();
    }

    private static void idleObjects() throws Exception {
        Bare factory = new Bare();
        ZuphinkaPool<Item> pool = pool(factory, 8);
        List<Item> lent = lend(pool, 3);
        lent.forEach(pool::returnObject);
        expect("the youngest", lent.get(2), pool.borrowObject());
        pool.returnObject(lent.get(2));
        pool.setLifo(false);
        expect("the oldest", lent.get(0), pool.borrowObject());
        pool.setMaxIdle(2);
        pool.returnObject(lent.get(0));
        expect("one too many is destroyed", "2 idle, 0 active, 3 created, 1 destroyed", counts(pool));
        pool.setMaxIdle(-1);
        pool.setMinIdle(4);
        pool.preparePool();
        expect("idle objects are made", "4 idle, 0 active, 5 created, 1 destroyed", counts(pool));
        pool.setMaxIdle(3);
        expect("no more than may be idle", 3, pool.getMinIdle());
        pool.setMinIdle(0);
        Thread.sleep(5);
        pool.setMinEvictableIdle(Duration.ofMillis(1));
        pool.evict();
        expect("three of them are examined", 1, pool.getNumIdle());
        pool.close();
    }

    /** Notes the idle times that it gets, and wants each object gone that was not lent so often. */
    private static final class Choosy implements EvictionPolicy<Item> {
        private final List<String> seen = new ArrayList<>();

        @Override
        public boolean evict(EvictionConfig config, PooledObject<Item> pooled, int idle) {
            seen.add(config.getIdleEvictDuration().toMillis() + " " + config.getIdleSoftEvictDuration().toMillis() + " " + config.getMinIdle());
            return idle > 1;
        }
    }

    /** A policy and its idle times change together: with one of the user's own the core evicts by none. */
    private static void policies(Bare factory) throws Exception {
        ZuphinkaPool<Item> pool = pool(factory, 4);
        lend(pool, 3).forEach(pool::returnObject);
        Thread.sleep(5);
        Choosy policy = new Choosy();
        GenericObjectPoolConfig<Item> config = config(4);
        config.setEvictionPolicy(policy);
        config.setMinEvictableIdleTime(Duration.ofMillis(1));
        config.setSoftMinEvictableIdleTime(Duration.ofMillis(2));
        config.setMinIdle(1);
        pool.setConfig(config);
        pool.evict();
        expect("what the policy sees", Collections.nCopies(3, "1 2 1"), policy.seen);
        expect("what it leaves", 1, pool.getNumIdle());
        pool.setMinEvictableIdle(Duration.ofMillis(7));
        pool.evict();
        expect("what it sees then", "7 2 1", policy.seen.get(3));
        expect("the core evicts by no time", true, pool.getSettingsText().contains("minEvictableIdleMillis = -1\n"));
        pool.setEvictionPolicyClassName(DefaultEvictionPolicy.class.getName());
        expect("and then by one", true, pool.getSettingsText().contains("minEvictableIdleMillis = 7\n"));
        Thread.sleep(10);
        pool.evict();
        expect("the core's policy", List.of(0, 4), List.of(pool.getNumIdle(), policy.seen.size()));
        pool.close();
    }

    /** An eviction run that began before goes on by the settings of the moment at each object. */
    private static void policyMeanwhile() throws Exception {
        ZuphinkaPool<Item> pool = pool(new Bare(), 4);
        pool.setEvictionPolicy((config, pooled, idle) -> {
            pool.setEvictionPolicy(new DefaultEvictionPolicy<>());
            return true;
        });
        lend(pool, 3).forEach(pool::returnObject);
        pool.evict();
        expect("the object that it was asked of is gone, the others stay", "2 idle, 0 active, 3 created, 1 destroyed", counts(pool));
        pool.close();
    }

    private static void abandoned() throws Exception {
        Bare factory = new Bare();
        ZuphinkaPool<Item> pool = pool(factory, 1);
        Item lent = pool.borrowObject();
        AbandonedConfig abandoned = new AbandonedConfig();
        abandoned.setRemoveAbandonedOnBorrow(true);
        abandoned.setRemoveAbandonedOnMaintenance(true);
        abandoned.setRemoveAbandonedTimeout(Duration.ofMillis(1));
        Thread.sleep(5);
        pool.setAbandonedConfig(abandoned);
        expect("one is abandoned", List.of(true, true, Duration.ofMillis(1)),
                List.of(pool.isAbandonedConfig(), pool.getRemoveAbandonedOnBorrow(), pool.getRemoveAbandonedTimeoutDuration()));
        Item other = pool.borrowObject();
        expect("its place is taken", "0 idle, 1 active, 2 created, 1 destroyed", counts(pool));
        pool.returnObject(lent);
        pool.setAbandonedConfig(null);
        Thread.sleep(5);
        pool.evict();
        expect("none is abandoned", "IllegalStateException: Returned object not currently part of this pool", ending(() -> pool.returnObject(lent)));
        pool.setBlockWhenExhausted(false);
        expect("none is taken", EXHAUSTED, result(pool::borrowObject));
        pool.returnObject(other);
        pool.close();
        expect("alive", List.of(0, 0), List.of(factory.alive.get(), factory.faults.get()));
    }

    // Waits.

    private static Object millisOf(Callable<?> call, Object wanted) {
        long begun = System.nanoTime();
        Object got = result(call);
        return wanted.equals(got) ? (Object) ((System.nanoTime() - begun) / 1_000_000) : got;
    }

    /**
     * Returns what a thread gets that waits for a lent object by some time, which changes, and is over before the object is returned. It waits again, for
     * longer, if the time was over before it changed.
     */
    private static List<Object> gotAfterChange(ZuphinkaPool<Item> pool, Item lent, Duration then) throws Exception {
        for (long wait = 1_000;; wait *= 2) {
            long millis = wait;
            long begun = System.nanoTime();
            boolean[] isInTime = new boolean[1];
            pool.setMaxWait(Duration.ofMillis(millis));
            List<Object> got = whileWaiting(pool, 1, pool::borrowObject, () -> {
                pool.setMaxWait(then);
                isInTime[0] = System.nanoTime() - begun < millis * 1_000_000;
                Thread.sleep(millis + 200);
                pool.returnObject(lent);
            });
            if (isInTime[0]) {
                return got;
            }
            if (!got.contains(lent)) {
                pool.borrowObject();
            }
        }
    }

    /** A wait is judged by the new time once the old one is over; a limit of its own stays. */
    private static void waits() throws Exception {
        ZuphinkaPool<Item> pool = pool(new Bare(), 1);
        Item lent = pool.borrowObject();
        expect("a wait that became longer", List.of(lent), gotAfterChange(pool, lent, Duration.ofSeconds(30)));
        expect("a wait that has no limit any more", List.of(lent), gotAfterChange(pool, lent, Duration.ofMillis(-1)));
        String over = "NoSuchElementException: Timeout waiting for idle object";
        List<Object> own = whileWaiting(pool, 1, () -> millisOf(() -> pool.borrowObject(Duration.ofMillis(300)), over),
                () -> pool.setMaxWait(Duration.ofMillis(1)));
        expect("a limit of its own: " + own, true, own.get(0) instanceof Long && (Long) own.get(0) >= 299);
        expect("a later wait", over, result(pool::borrowObject));
        List<Object> longer = whileWaiting(pool, 1, () -> pool.borrowObject(-1), () -> {
            pool.setMaxWait(Duration.ZERO);
            Thread.sleep(50);
            pool.returnObject(lent);
        });
        expect("a wait without a limit", List.of(lent), longer);
        pool.close();
    }

    // Properties.

    private static Object attribute(ZuphinkaPool<?> pool, String name) {
        return result(() -> ManagementFactory.getPlatformMBeanServer().getAttribute(pool.getJmxName(), name));
    }

    private static void property(String name, Object wanted, Consumer<ZuphinkaPool<Item>> set, Callable<?> get) {
        set.accept(PROPERTIES);
        expect(name, wanted, result(get));
    }

    private static final ZuphinkaPool<Item> PROPERTIES = new ZuphinkaPool<>(new Bare());

    private static void properties() {
        ZuphinkaPool<Item> pool = PROPERTIES;
        property("maxTotal", 11, some -> some.setMaxTotal(11), pool::getMaxTotal);
        property("maxIdle", 12, some -> some.setMaxIdle(12), pool::getMaxIdle);
        property("minIdle", 3, some -> some.setMinIdle(3), pool::getMinIdle);
        property("lifo", false, some -> some.setLifo(false), pool::getLifo);
        property("blockWhenExhausted", false, some -> some.setBlockWhenExhausted(false), pool::getBlockWhenExhausted);
        property("maxWait", Duration.ofMillis(4), some -> some.setMaxWait(Duration.ofMillis(4)), pool::getMaxWaitDuration);
        property("testOnCreate", true, some -> some.setTestOnCreate(true), pool::getTestOnCreate);
        property("testOnBorrow", true, some -> some.setTestOnBorrow(true), pool::getTestOnBorrow);
        property("testOnReturn", true, some -> some.setTestOnReturn(true), pool::getTestOnReturn);
        property("testWhileIdle", true, some -> some.setTestWhileIdle(true), pool::getTestWhileIdle);
        property("tests", -2, some -> some.setNumTestsPerEvictionRun(-2), pool::getNumTestsPerEvictionRun);
        property("idle time", Duration.ofMillis(5), some -> some.setMinEvictableIdle(Duration.ofMillis(5)), pool::getMinEvictableIdleDuration);
        property("soft idle time", Duration.ofMillis(6), some -> some.setSoftMinEvictableIdle(Duration.ofMillis(6)),
                pool::getSoftMinEvictableIdleDuration);
        property("shutdown", Duration.ofMillis(7), some -> some.setEvictorShutdownTimeout(Duration.ofMillis(7)),
                pool::getEvictorShutdownTimeoutDuration);
        property("pause", Duration.ofHours(1), some -> some.setTimeBetweenEvictionRuns(Duration.ofHours(1)), pool::getDurationBetweenEvictionRuns);
        expect("their text", String.join("\n", "blockWhenExhausted = false", "journalLimit = 4294967296", "lifo = false", "maxIdle = 12",
                "maxTotal = 11", "maxWaitMillis = 4", "minEvictableIdleMillis = 5", "minIdle = 3", "numTestsPerEvictionRun = -2",
                "softMinEvictableIdleMillis = 6", "testOnBorrow = true", "testOnCreate = true", "testOnReturn = true", "testWhileIdle = true", ""),
                pool.getSettingsText());
        expect("the MBean", List.of(11, 4L, true, false, 3_600_000L), Stream.of("MaxTotal", "MaxWaitMillis", "TestOnBorrow", "Lifo",
                "TimeBetweenEvictionRunsMillis").map(name -> attribute(pool, name)).collect(Collectors.toList()));
        pool.close();
        pool.setMaxTotal(5);
        expect("a closed pool", List.of(5, "IllegalStateException: Pool not open"), List.of(pool.getMaxTotal(), result(pool::borrowObject)));
    }

    /** Configurations that are refused change nothing. */
    private static void refused() throws Exception {
        ZuphinkaPool<Item> pool = new ZuphinkaPool<>(new Bare(), config(2), null, Journal.kept().limit(100));
        Item lent = pool.borrowObject();
        String before = pool.getSettingsText() + counts(pool) + pool.getCounts().entries();
        GenericObjectPoolConfig<Item> unmade = config(3);
        unmade.setEvictionPolicyClassName("org.example.None");
        String limit = "IllegalArgumentException: journal limit: 100 is reached before all objects are lent (maxTotal 1000)";
        expect("a limit", limit, ending(() -> pool.setMaxTotal(1000)));
        expect("a limit with others", limit, ending(() -> pool.reconfigure(config(1000), new AbandonedConfig())));
        String policy = "IllegalArgumentException: evictionPolicyClassName: no policy can be made of org.example.None from org.example.None";
        expect("a policy", policy, ending(() -> pool.setConfig(unmade)));
        expect("its name", policy, ending(() -> pool.setEvictionPolicyClassName("org.example.None")));
        expect("nothing", true, ending(() -> pool.setConfig(null)).toString().startsWith("NullPointerException"));
        expect("what is left", before, pool.getSettingsText() + counts(pool) + pool.getCounts().entries());
        expect("its policy", List.of(2, false), Arrays.asList(pool.getMaxTotal(), pool.getEvictionPolicy() != null));
        pool.returnObject(lent);
        pool.close();
    }

    private static boolean isMaintained() {
        return Thread.getAllStackTraces().keySet().stream().anyMatch(thread -> thread.getName().equals("zuphinka-maintenance"));
    }

    /** The maintenance thread has the pause that was set last. */
    private static void maintenance() throws Exception {
        ZuphinkaPool<Item> pool = pool(new Bare(), 4);
        pool.setMinIdle(2);
        pool.setTimeBetweenEvictionRuns(Duration.ofMillis(2));
        until(() -> pool.getNumIdle() == 2);
        expect("a thread that was set later", 2, pool.getNumIdle());
        pool.setTimeBetweenEvictionRuns(Duration.ofMillis(-1));
        until(() -> !isMaintained());
        pool.clear();
        Thread.sleep(50);
        expect("no thread", 0, pool.getNumIdle());
        pool.close();
        pool.setTimeBetweenEvictionRuns(Duration.ofMillis(1));
        expect("a closed one has none", false, isMaintained());
    }

    // Journals.

    private static int maxTotalOf(String settings) {
        return Integer.parseInt(settings.replaceAll("(?s).*maxTotal = (\\d+)\n.*", "$1"));
    }

    /** Returns the position, the entries and the {@code maxTotal} of each segment. */
    private static List<String> shown(List<Segment> segments) {
        return segments.stream().map(segment -> segment.position() + " " + segment.entries() + " " + maxTotalOf(segment.settings()))
                .collect(Collectors.toList());
    }

    private static void pairs(ZuphinkaPool<Item> pool, int number) throws Exception {
        for (int pair = 0; pair < number; pair++) {
            pool.returnObject(pool.borrowObject());
        }
    }

    private static void kept() throws Exception {
        ZuphinkaPool<Item> pool = pool(new Bare(), 2);
        pool.setMaxTotal(3);
        pairs(pool, 2);
        pool.setMaxTotal(3);
        expect("the same settings cut nothing", 8L, pool.getCounts().entries());
        pool.setMaxTotal(4);
        pool.setMaxTotal(5);
        pairs(pool, 1);
        pool.setMaxTotal(6);
        pairs(pool, 3);
        List<Segment> segments = new ArrayList<>();
        do {
            segments.add(pool.cut());
        } while (pool.getCounts().steps() > last(segments).position() + last(segments).entries());
        expect("the segments of a kept journal", List.of("0 8 3", "8 4 5", "12 12 6"), shown(segments));
        pool.close();
        expect("the rest", List.of("24 3 6"), shown(List.of(pool.cut())));
    }

    private static <E> E last(List<E> list) {
        return list.get(list.size() - 1);
    }

    private static List<String> files(Path folder) throws IOException {
        try (Stream<Path> files = Files.list(folder)) {
            return files.map(file -> file.getFileName().toString()).filter(name -> name.startsWith("settings")).sorted().collect(Collectors.toList());
        }
    }

    /** The settings are beside the segments that have them. */
    private static void inFolder(Path folder) throws Exception {
        ZuphinkaPool<Item> pool = new ZuphinkaPool<>(new Bare(), config(4), null, whenDue(folder));
        List<Item> lent = lend(pool, 4);
        pool.setMaxTotal(2);
        String fewer = pool.getSettingsText();
        pool.flushJournal();
        pool.returnObject(lent.remove(0));
        pool.setLifo(false);
        lent.forEach(pool::returnObject);
        pool.setMaxTotal(7);
        pool.setMaxTotal(8);
        pairs(pool, 1);
        pool.close();
        Path stored = pool.getJournalFolder();
        expect("files of settings", List.of("settings-00000000000000000008.toml", "settings-00000000000000000010.toml",
                "settings-00000000000000000016.toml", "settings.toml"), files(stored));
        expect("the second", fewer, Files.readString(stored.resolve("settings-00000000000000000008.toml")));
        expect("the last", 8, maxTotalOf(Files.readString(stored.resolve("settings-00000000000000000016.toml"))));
    }

    /** Notes what is swallowed. */
    private static final class Noting extends ZuphinkaPool<Item> {
        private final List<String> noted = new ArrayList<>();

        Noting(Journal journal) {
            super(new Bare(), config(2), null, journal);
        }

        @Override
        protected void swallowed(Exception failure) {
            noted.add(failure.getMessage());
        }
    }

    /** A sink that fails at a change: the segment waits with the settings that it had, and so do those of later changes. */
    private static void failingSink() throws Exception {
        List<Segment> segments = new ArrayList<>();
        AtomicBoolean isBroken = new AtomicBoolean(true);
        Noting pool = new Noting(whenDue(segment -> {
            if (isBroken.get()) {
                throw new IOException("sink");
            }
            segments.add(segment);
        }));
        pairs(pool, 1);
        pool.setMaxTotal(3);
        expect("the failure", List.of("sink"), pool.noted);
        expect("the new settings", 3, pool.getMaxTotal());
        pairs(pool, 2);
        pool.setMaxTotal(4);
        pairs(pool, 1);
        isBroken.set(false);
        pool.flushJournal();
        expect("its segments", List.of("0 4 2", "4 8 3", "12 4 4"), shown(segments));
        pool.close();
    }

    /** A sink runs without the pool's lock, and may change the settings itself. */
    private static void sinkBesideThePool() throws Exception {
        List<Segment> segments = Collections.synchronizedList(new ArrayList<>());
        List<Object> seen = Collections.synchronizedList(new ArrayList<>());
        List<ZuphinkaPool<Item>> pools = new ArrayList<>();
        ZuphinkaPool<Item> pool = new ZuphinkaPool<>(new Bare(), config(2), null, whenDue(segment -> {
            segments.add(segment);
            if (segments.size() == 1) {
                seen.add(within(begun(() -> {
                    pairs(pools.get(0), 1);
                    return pools.get(0).getNumIdle();
                })));
                pools.get(0).setMaxTotal(4);
            }
        }));
        pools.add(pool);
        pairs(pool, 1);
        pool.setMaxTotal(3);
        expect("another thread beside the sink", List.of(1), seen);
        pairs(pool, 1);
        pool.close();
        expect("the segments", List.of("0 4 2", "4 4 3", "8 7 4"), shown(segments));
    }

    // Threads.

    /** Calls until the settings have changed often enough, too. */
    private static Object calls(ZuphinkaPool<Item> pool, AtomicInteger faults, BooleanSupplier hasChanged, int seed) throws Exception {
        Random random = new Random(seed);
        for (int round = 0; round < ROUNDS || !hasChanged.getAsBoolean(); round++) {
            Item item;
            try {
                item = random.nextInt(4) == 0 ? pool.borrowObject(Duration.ofMillis(50)) : pool.borrowObject();
            } catch (NoSuchElementException e) {
                continue;
            }
            faults.addAndGet(item.isHeld.getAndSet(true) || item.isDestroyed.get() ? 1 : 0);
            if (random.nextInt(8) == 0) {
                Thread.yield();
            }
            item.isHeld.set(false);
            if (random.nextInt(6) > 0) {
                pool.returnObject(item);
            } else {
                pool.invalidateObject(item);
            }
            if (random.nextInt(50) == 0) {
                pool.evict();
                pool.preparePool();
            }
        }
        return "done";
    }

    private static Object changes(ZuphinkaPool<Item> pool, AtomicBoolean isOver, AtomicInteger changes, int seed) {
        Random random = new Random(seed);
        GenericObjectPoolConfig<Item> one = config(2);
        one.setTestOnBorrow(true);
        one.setMaxWait(Duration.ofMillis(100));
        one.setTestWhileIdle(true);
        GenericObjectPoolConfig<Item> other = config(5);
        other.setLifo(false);
        other.setMaxIdle(2);
        other.setMinIdle(1);
        other.setTestOnReturn(true);
        other.setTestOnCreate(true);
        other.setEvictionPolicy((settings, pooled, idle) -> idle > 2);
        AbandonedConfig abandoned = new AbandonedConfig();
        abandoned.setRemoveAbandonedOnBorrow(true);
        while (!isOver.get()) {
            boolean isOne = random.nextBoolean();
            pool.reconfigure(isOne ? one : other, isOne && random.nextBoolean() ? abandoned : null);
            changes.incrementAndGet();
        }
        pool.setConfig(other);
        return "done";
    }

    private static void threads(Bare factory, Journal journal, int seed) throws Exception {
        ZuphinkaPool<Item> pool = new ZuphinkaPool<>(factory, config(3), null, journal);
        AtomicInteger faults = new AtomicInteger();
        AtomicInteger changes = new AtomicInteger();
        int wanted = seed < 2 ? 100 : 2;
        AtomicBoolean isOver = new AtomicBoolean();
        List<FutureTask<Object>> threads = new ArrayList<>();
        for (int thread = 0; thread < THREADS; thread++) {
            int number = THREADS * seed + thread;
            threads.add(begun(() -> calls(pool, faults, () -> changes.get() >= wanted, number)));
        }
        FutureTask<Object> changing = begun(() -> changes(pool, isOver, changes, seed));
        threads.forEach(thread -> expect("calls while settings change", "done", within(thread)));
        isOver.set(true);
        expect("changes while others call", "done", within(changing));
        expect("none is lent", 0, pool.getNumActive());
        expect("its objects", factory.alive.get(), pool.getNumIdle());
        List<Item> lent = lend(pool, 5);
        expect("all can be lent", 5, new HashSet<>(lent).size());
        pool.setBlockWhenExhausted(false);
        expect("and no more", EXHAUSTED, result(pool::borrowObject));
        lent.forEach(pool::returnObject);
        pool.close();
        expect("lost, or held or destroyed twice", List.of(0, 0, 0), List.of(factory.alive.get(), factory.faults.get(), faults.get()));
        expect("all are counted", pool.getCreatedCount(), pool.getDestroyedCount());
    }

    public static void main(String[] words) throws Exception {
        Path folder = Path.of(words[0]);
        morePlaces(false);
        morePlaces(true);
        fewerPlaces();
        tests(new Bare(), "", "");
        tests(new Hooked(), "activate ", " passivate");
        idleObjects();
        policies(new Bare());
        policies(new Hooked());
        policyMeanwhile();
        abandoned();
        waits();
        properties();
        refused();
        maintenance();
        kept();
        inFolder(folder.resolve("folder"));
        failingSink();
        sinkBesideThePool();
        for (int seed = 0; seed < 6; seed++) {
            Journal journal = seed < 2 ? Journal.dropped() : Journal.inFolder(folder.resolve("threads-" + seed));
            threads(seed % 2 == 0 ? new Bare() : new Hooked(), journal, seed);
        }
        printCounts();
    }
}
