import io.github.zuphinka.ZuphinkaPool;
import java.time.Duration;
import java.util.ArrayList;
import java.util.LinkedHashMap;
import java.util.List;
import java.util.Map;
import java.util.Set;
import java.util.function.LongSupplier;
import java.util.stream.Collectors;
import java.util.stream.Stream;
import org.apache.commons.pool2.DestroyMode;
import org.apache.commons.pool2.ObjectPool;
import org.apache.commons.pool2.UsageTracking;
import org.apache.commons.pool2.impl.DefaultPooledObjectInfo;
import org.apache.commons.pool2.impl.InPlacePool;
import org.apache.commons.pool2.impl.PlacedPool;

/** One of the two pools, with a factory of its own. */
final class Side {
    /** Where the statistics begin that a message has. */
    private static final String STATISTICS = ", activeTimes=";
    /** The name of what they are among the properties. */
    static final String MESSAGE = "the statistics in the message";
    /** The name of the states of all objects that were made. */
    static final String STATES = "the states of objects";
    /** The getters of the counts, in the order of their names in outcomes. */
    private static final List<String> COUNTS = List.of("getCreatedCount", "getBorrowedCount", "getReturnedCount", "getDestroyedCount",
            "getDestroyedByEvictorCount", "getDestroyedByBorrowValidationCount");

    private interface Act {
        void run() throws Exception;
    }

    private interface Borrow {
        Item within(Duration longest) throws Exception;
    }

    private interface BorrowMillis {
        Item within(long longestMillis) throws Exception;
    }

    final Items items;
    private final ObjectPool<Item> pool;
    private final Borrow borrow;
    private final BorrowMillis borrowMillis;
    private final Act evict;
    private final Act prepare;
    private final UsageTracking<Item> usage;
    private final Properties properties;
    private final Map<String, LongSupplier> levels = new LinkedHashMap<>();
    private final Map<String, LongSupplier> counts = new LinkedHashMap<>();
    private final Map<String, Long> before = new LinkedHashMap<>();
    private final List<String> swallowed = new ArrayList<>();
    private String result;
    private String statistics;
    private String log;
    private boolean isInterrupted;
    private Integer lent;

    private <P extends ObjectPool<Item> & UsageTracking<Item>> Side(Items items, P pool, Borrow borrow, BorrowMillis borrowMillis, Act evict,
            Act prepare) {
        this.items = items;
        this.pool = pool;
        usage = pool;
        this.borrow = borrow;
        this.borrowMillis = borrowMillis;
        this.evict = evict;
        this.prepare = prepare;
        properties = new Properties(pool);
        levels.put("idle", pool::getNumIdle);
        levels.put("active", pool::getNumActive);
        levels.put("interrupted", () -> isInterrupted ? 1 : 0);
        levels.put("waiters", () -> (int) properties.get("getNumWaiters"));
        levels.put("closed", () -> (boolean) properties.get("isClosed") ? 1 : 0);
        for (int index = 0; index < COUNTS.size(); index++) {
            String getter = COUNTS.get(index);
            counts.put(Outcome.COUNTS.get(index), () -> (long) properties.get(getter));
        }
    }

    static Side of(Items items, PlacedPool<Item> pool) {
        Side side = new Side(items, pool, pool::borrowObject, pool::borrowObject, pool::evict, pool::preparePool);
        pool.setSwallowedExceptionListener(side::swallow);
        return side;
    }

    static Side of(Items items, InPlacePool<Item> pool) {
        Side side = new Side(items, pool, pool::borrowObject, pool::borrowObject, pool::evict, pool::preparePool);
        pool.setSwallowedExceptionListener(side::swallow);
        return side;
    }

    static Side of(Items items, ZuphinkaPool<Item> pool) {
        return new Side(items, pool, pool::borrowObject, pool::borrowObject, pool::evict, pool::preparePool);
    }

    /** Notes an exception that the pool swallows. Commons Pool wraps those of an eviction policy, and {@code ZuphinkaPool} does not. */
    void swallow(Exception exception) {
        boolean isWrapped = !items.settings.isInPlace && exception.getClass() == Exception.class && exception.getCause() != null;
        swallowed.add(text(isWrapped ? exception.getCause() : exception));
    }

    Properties properties() {
        return properties;
    }

    /** Makes a call with the object of this number. */
    void make(Call call, int number) {
        items.begin(call);
        swallowed.clear();
        counts.forEach((name, count) -> before.put(name, count.getAsLong()));
        lent = null;
        if (call.isInterrupted()) {
            Thread.currentThread().interrupt();
        }
        statistics = "";
        Settings.LOG.getBuffer().setLength(0);
        result = result(call, call.isForHeld() || call.isForOther() ? items.item(number) : null);
        isInterrupted = Thread.interrupted();
        log = log();
    }

    /** Returns what was logged of abandoned objects, without times and stacks. Commons Pool has no order of them. */
    private static String log() {
        return Settings.LOG.toString().lines().filter(line -> !line.startsWith("\tat") && !line.startsWith("class "))
                .map(line -> line.replaceAll("[0-9]", "0")).sorted().collect(Collectors.joining("; "));
    }

    private String result(Call call, Item item) {
        try {
            return act(call, item);
        } catch (Throwable e) {
            statistics = statistics("" + e.getMessage());
            return text(e);
        }
    }

    private String act(Call call, Item item) throws Exception {
        switch (call.kind) {
            case BORROW:
                lent = pool.borrowObject().number;
                return "object " + lent;
            case BORROW_WITHIN:
                Duration limit = call.limit((boolean) properties.get("getBlockWhenExhausted"));
                lent = (limit.toMillis() == 1 ? borrowMillis.within(1) : borrow.within(limit)).number;
                return "object " + lent;
            case RETURN:
            case RETURN_OTHER:
                pool.returnObject(item);
                break;
            case INVALIDATE:
            case INVALIDATE_OTHER:
                pool.invalidateObject(item, call.chance % 8 == 0 ? DestroyMode.ABANDONED : DestroyMode.NORMAL);
                break;
            case USE:
            case USE_OTHER:
                usage.use(item);
                break;
            default:
                actOnPool(call);
        }
        return "done";
    }

    /**
     * Returns the statistics in a message, without times, and without the numbers that are compared with those before a call: a difference before may
     * have changed them. The longest wait is in milliseconds.
     */
    private static String statistics(String message) {
        int start = message.indexOf(STATISTICS);
        return message.substring(start < 0 ? message.length() : start).replaceAll("maxBorrowWaitDuration=PT([0-9]+M)?[0-9]+([.][0-9]{1,3})?S", "")
                .replaceAll("(Times=)\\[[^]]*]|((?:created|destroyed|returned)\\w+=)[^ ]*", "$1$2");
    }

    private void set(Change change) throws Exception {
        properties.set(change.setter, change.value);
    }

    private void actOnPool(Call call) throws Exception {
        switch (call.kind) {
            case ADD:
                pool.addObject();
                break;
            case ADD_TWO:
                pool.addObjects(2);
                break;
            case PREPARE:
                prepare.run();
                break;
            case EVICT:
                evict.run();
                break;
            case CLEAR:
                pool.clear();
                break;
            case CLOSE:
                pool.close();
                break;
            default:
                set(Change.of(call));
        }
    }

    /**
     * Returns the kind and the message of what was thrown, and of its cause: without statistics, without the name and the numbers of the pool that only
     * one library tells, and of a null without the name of a variable.
     */
    static String text(Throwable thrown) {
        String text = thrown.getClass().getSimpleName() + ": " + thrown.getMessage();
        String own = text.split(STATISTICS)[0].replaceFirst("Cannot .* because .* is null", "null").replaceFirst(": pool .*, maxTotal -?[0-9]+", "");
        return thrown.getCause() == null ? own : own + " from " + text(thrown.getCause());
    }

    /** Invalidates an object, whatever the factory throws. */
    void invalidate(int number) {
        try {
            pool.invalidateObject(items.item(number));
        } catch (Exception e) {
            // The factory has noted it.
        }
    }

    /** Returns what came of the last call. */
    Outcome outcome() {
        Map<String, Long> numbers = new LinkedHashMap<>();
        levels.forEach((name, level) -> numbers.put(name, level.getAsLong()));
        counts.forEach((name, count) -> numbers.put(name, count.getAsLong() - before.get(name)));
        return new Outcome(result, lent, items.callbacks(), swallowed, numbers, all());
    }

    /** Returns the number of an object, and of its loans. */
    private static String text(Object listed) {
        DefaultPooledObjectInfo object = (DefaultPooledObjectInfo) listed;
        return object.getPooledObjectToString() + " " + object.getBorrowedCount();
    }

    /** Returns the properties of the pool, its objects, the statistics in the last message, and what was logged. */
    private Map<String, String> all() {
        Map<String, String> all = properties.all();
        Stream<?> objects = ((Set<?>) properties.get("listAllObjects")).stream();
        all.put("objects", objects.map(Side::text).sorted().collect(Collectors.joining(", ")));
        all.put(MESSAGE, statistics);
        all.put("the log", log);
        if (items.settings.isInPlace) {
            all.put(STATES, items.states()); // ZuphinkaPool tells no wrapper that nobody sees
        }
        return all;
    }
}
