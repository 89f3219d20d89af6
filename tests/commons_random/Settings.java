import java.io.PrintWriter;
import java.io.StringWriter;
import java.time.Duration;
import java.util.ArrayList;
import java.util.EnumMap;
import java.util.List;
import java.util.Map;
import java.util.Objects;
import java.util.Random;
import java.util.SplittableRandom;
import org.apache.commons.pool2.impl.AbandonedConfig;
import org.apache.commons.pool2.impl.GenericObjectPoolConfig;

/** The settings of a run, chosen at random: those of the pools, which methods the factory has, and how often each fails. */
final class Settings {
    /** Which methods of its own a factory has: only to make objects; also to test and destroy them; all of them. */
    enum Hooks {
        MAKE,
        TEST,
        ALL
    }

    /** Times pass by the hour. So no limit is near, however slow a run is. */
    private static final Duration LIMIT = Duration.ofMinutes(90);
    private static final Duration LONG_LIMIT = LIMIT.plusHours(1);
    private static final int UNLIMITED = Integer.MAX_VALUE;
    /** What pools log of abandoned objects. */
    static final StringWriter LOG = new StringWriter();

    /** Whether the pool beside the library's is the class in its place, and not {@code ZuphinkaPool}. */
    final boolean isInPlace;
    /** With these settings a pool is made. */
    final GenericObjectPoolConfig<Item> config;
    final AbandonedConfig abandoned;
    final Hooks hooks;
    /** How many of a hundred calls of each method fail. */
    private final Map<Callback.Method, Integer> failing = new EnumMap<>(Callback.Method.class);
    /** Whether tests and destructions may throw, and a made object may be null. */
    private final boolean isRough;
    private final Map<Call.Kind, Integer> weights = new EnumMap<>(Call.Kind.class);

    Settings(Random random, boolean isInPlace) {
        this.isInPlace = isInPlace;
        config = config(random);
        abandoned = random.nextInt(4) == 0 ? abandoned(random) : null;
        hooks = one(random, Hooks.MAKE, Hooks.TEST, Hooks.ALL, Hooks.ALL, Hooks.ALL);
        isRough = random.nextInt(3) == 0;
        boolean isFailing = random.nextInt(5) > 0;
        for (Callback.Method method : Callback.Method.values()) {
            failing.put(method, isFailing ? one(random, 0, 0, 2, 10, 40) : 0);
        }
        chooseWeights(random);
    }

    @SafeVarargs
    static <E> E one(Random random, E... all) {
        return all[random.nextInt(all.length)];
    }

    /** Returns settings of pools. A limit of waits is never left out, since with one thread nobody would end the wait. */
    static GenericObjectPoolConfig<Item> config(Random random) {
        GenericObjectPoolConfig<Item> config = new GenericObjectPoolConfig<>();
        chooseLimits(config, random);
        chooseTests(config, random);
        return config;
    }

    private static void chooseLimits(GenericObjectPoolConfig<Item> config, Random random) {
        config.setJmxEnabled(false);
        config.setMaxTotal(one(random, 0, 1, 1, 2, 3, 4, 5, 8, -1));
        config.setMaxIdle(one(random, 0, 1, 2, 3, 5, 8, UNLIMITED, UNLIMITED, -1));
        config.setMinIdle(one(random, -1, 0, 0, 1, 2, 4));
        config.setLifo(random.nextBoolean());
        config.setFairness(random.nextBoolean());
        config.setBlockWhenExhausted(random.nextBoolean());
        config.setMaxWait(Duration.ofMillis(one(random, 0, 0, 0, 1)));
    }

    private static void chooseTests(GenericObjectPoolConfig<Item> config, Random random) {
        config.setTestOnBorrow(random.nextInt(3) == 0);
        config.setTestOnCreate(random.nextInt(3) == 0);
        config.setTestOnReturn(random.nextInt(3) == 0);
        config.setTestWhileIdle(random.nextBoolean());
        config.setNumTestsPerEvictionRun(one(random, 3, 1, 2, 10, 0, -1, -2, -3, Integer.MIN_VALUE));
        config.setMinEvictableIdleTime(one(random, Duration.ofMillis(-1), Duration.ZERO, LIMIT, LIMIT, LONG_LIMIT));
        config.setSoftMinEvictableIdleTime(one(random, Duration.ofMillis(-1), Duration.ZERO, LIMIT));
    }

    static AbandonedConfig abandoned(Random random) {
        AbandonedConfig abandoned = new AbandonedConfig();
        abandoned.setRemoveAbandonedOnBorrow(random.nextBoolean());
        abandoned.setRemoveAbandonedOnMaintenance(random.nextBoolean());
        abandoned.setRemoveAbandonedTimeout(one(random, Duration.ZERO, LIMIT, LIMIT, LONG_LIMIT));
        abandoned.setUseUsageTracking(random.nextBoolean());
        abandoned.setLogAbandoned(random.nextInt(4) == 0);
        abandoned.setRequireFullStackTrace(random.nextBoolean());
        abandoned.setLogWriter(new PrintWriter(LOG));
        return abandoned;
    }

    private void chooseWeights(Random random) {
        weights.put(Call.Kind.BORROW, 10 + random.nextInt(30));
        weights.put(Call.Kind.BORROW_WITHIN, 5);
        weights.put(Call.Kind.RETURN, 10 + random.nextInt(30));
        weights.put(Call.Kind.INVALIDATE, one(random, 1, 5));
        weights.put(Call.Kind.USE, abandoned == null ? 1 : 6);
        weights.put(Call.Kind.ADD, one(random, 1, 5, 15));
        weights.put(Call.Kind.ADD_TWO, 1);
        weights.put(Call.Kind.PREPARE, one(random, 1, 5));
        weights.put(Call.Kind.EVICT, one(random, 2, 10, 20));
        weights.put(Call.Kind.CLEAR, one(random, 1, 1, 4));
        weights.put(Call.Kind.HOUR, one(random, 1, 5, 10));
        weights.put(Call.Kind.RETURN_OTHER, one(random, 0, 2));
        weights.put(Call.Kind.USE_OTHER, one(random, 0, 2));
        weights.put(Call.Kind.INVALIDATE_OTHER, one(random, 0, 0, 0, 0, 1));
        int changing = one(random, 0, 1, 4);
        weights.put(Call.Kind.SET, 4 * changing);
        weights.put(Call.Kind.SET_ALL, changing);
        weights.put(Call.Kind.SET_ABANDONED, abandoned == null ? changing / 2 : changing);
        weights.put(Call.Kind.SET_OTHER, changing);
    }

    /** Returns random calls, the last ones of a closed pool. */
    List<Call> calls(Random random, int open, int closed) {
        List<Call> calls = new ArrayList<>();
        while (calls.size() < open) {
            calls.add(new Call(kind(random), random.nextInt(Integer.MAX_VALUE)));
        }
        calls.add(new Call(Call.Kind.CLOSE, random.nextInt(Integer.MAX_VALUE)));
        while (calls.size() <= open + closed) {
            calls.add(new Call(one(random, Call.Kind.values()), random.nextInt(Integer.MAX_VALUE)));
        }
        return calls;
    }

    private Call.Kind kind(Random random) {
        int left = random.nextInt(weights.values().stream().mapToInt(Integer::intValue).sum());
        for (Map.Entry<Call.Kind, Integer> weight : weights.entrySet()) {
            left -= weight.getValue();
            if (left < 0) {
                return weight.getKey();
            }
        }
        throw new AssertionError();
    }

    /**
     * Returns how a method of the factory ends: by the call of the pool, the object, and how often the method was called before in that call for that
     * object. So it ends alike in both pools, although one of them made a call more or less before. Commons Pool calls no {@code passivateObject} in
     * {@code preparePool}, so that fails in neither.
     */
    Callback.End end(Call call, Callback.Method method, int number, long before) {
        Random random = new Random(new SplittableRandom(Objects.hash(call.chance, method.ordinal(), number, before)).nextLong());
        boolean isInFill = call.isOf(Call.Kind.PREPARE) && method == Callback.Method.PASSIVATE;
        if (random.nextInt(100) >= failing.get(method) || isInFill) {
            return Callback.End.GOOD;
        }
        boolean isUsual = !isRough || random.nextInt(4) > 0;
        switch (method) {
            case MAKE:
                return isUsual ? Callback.End.THROWS : Callback.End.NULL;
            case VALIDATE:
                return isUsual ? Callback.End.INVALID : Callback.End.THROWS;
            case DESTROY:
            case DESTROY_ABANDONED:
                return isUsual ? Callback.End.GOOD : Callback.End.THROWS;
            default:
                return Callback.End.THROWS;
        }
    }

    @Override
    public String toString() {
        return text(config) + (abandoned == null ? "" : " " + text(abandoned)) + "; the factory has " + hooks + ", and fails in " + failing
                + " of 100 calls";
    }

    static String text(GenericObjectPoolConfig<?> config) {
        return "maxTotal=" + config.getMaxTotal() + " maxIdle=" + config.getMaxIdle() + " minIdle=" + config.getMinIdle()
                + " lifo=" + config.getLifo() + " fairness=" + config.getFairness() + " blockWhenExhausted=" + config.getBlockWhenExhausted()
                + " maxWait=" + config.getMaxWaitDuration() + " testOnBorrow=" + config.getTestOnBorrow()
                + " testOnCreate=" + config.getTestOnCreate() + " testOnReturn=" + config.getTestOnReturn()
                + " testWhileIdle=" + config.getTestWhileIdle() + " numTestsPerEvictionRun=" + config.getNumTestsPerEvictionRun()
                + " minEvictableIdle=" + config.getMinEvictableIdleDuration()
                + " softMinEvictableIdle=" + config.getSoftMinEvictableIdleDuration();
    }

    static String text(AbandonedConfig abandoned) {
        return "removeAbandonedOnBorrow=" + abandoned.getRemoveAbandonedOnBorrow()
                + " removeAbandonedOnMaintenance=" + abandoned.getRemoveAbandonedOnMaintenance()
                + " removeAbandonedTimeout=" + abandoned.getRemoveAbandonedTimeoutDuration()
                + " useUsageTracking=" + abandoned.getUseUsageTracking();
    }
}
