import java.time.Duration;
import java.util.ArrayList;
import java.util.LinkedHashMap;
import java.util.List;
import java.util.Map;
import java.util.NoSuchElementException;
import java.util.concurrent.atomic.AtomicInteger;
import java.util.function.Consumer;
import org.apache.commons.pool2.BasePooledObjectFactory;
import org.apache.commons.pool2.PooledObject;
import org.apache.commons.pool2.impl.AbandonedConfig;
import org.apache.commons.pool2.impl.DefaultPooledObject;
import org.apache.commons.pool2.impl.GenericObjectPool;
import org.apache.commons.pool2.impl.GenericObjectPoolConfig;

/**
 * Sets properties of a GenericObjectPool that has objects, and prints what later calls do: over both classes the same. Of {@code lifo} the pages name a
 * difference.
 */
public final class LaterSettings {
    private LaterSettings() {}

    /** Numbers its objects, and notes what it is asked. */
    private static final class Numbered extends BasePooledObjectFactory<String> {
        private final AtomicInteger next = new AtomicInteger();
        private final List<String> asked = new ArrayList<>();

        @Override
        public String create() {
            return "object " + next.getAndIncrement();
        }

        @Override
        public PooledObject<String> wrap(String object) {
            return new DefaultPooledObject<>(object);
        }

        @Override
        public boolean validateObject(PooledObject<String> pooled) {
            asked.add("test " + pooled.getObject());
            return true;
        }

        @Override
        public void destroyObject(PooledObject<String> pooled) {
            asked.add("destroy " + pooled.getObject());
        }
    }

    private static Map<String, Consumer<GenericObjectPool<String>>> changes() {
        Map<String, Consumer<GenericObjectPool<String>>> changes = new LinkedHashMap<>();
        changes.put("none", pool -> {});
        changes.put("more places", pool -> pool.setMaxTotal(9));
        changes.put("fewer places than objects", pool -> pool.setMaxTotal(2));
        changes.put("any number of places", pool -> pool.setMaxTotal(-1));
        changes.put("maxIdle", pool -> pool.setMaxIdle(2));
        changes.put("minIdle", pool -> pool.setMinIdle(6));
        changes.put("testOnBorrow", pool -> pool.setTestOnBorrow(true));
        changes.put("testOnCreate", pool -> pool.setTestOnCreate(true));
        changes.put("testOnReturn", pool -> pool.setTestOnReturn(true));
        changes.put("testWhileIdle", pool -> pool.setTestWhileIdle(true));
        changes.put("maxWait", pool -> {
            pool.setBlockWhenExhausted(true);
            pool.setMaxWait(Duration.ofMillis(5));
        });
        changes.put("idle time", pool -> pool.setMinEvictableIdle(Duration.ofMillis(1)));
        changes.put("soft idle time", pool -> {
            pool.setSoftMinEvictableIdle(Duration.ofMillis(1));
            pool.setMinIdle(3);
        });
        changes.put("policy", pool -> {
            pool.setEvictionPolicy((config, pooled, idle) -> idle > 3);
            pool.setNumTestsPerEvictionRun(5);
        });
        changes.put("abandonment", pool -> {
            AbandonedConfig abandoned = new AbandonedConfig();
            abandoned.setRemoveAbandonedOnBorrow(true);
            abandoned.setRemoveAbandonedTimeout(Duration.ofHours(1));
            pool.setAbandonedConfig(abandoned);
        });
        changes.put("all", pool -> {
            GenericObjectPoolConfig<String> config = new GenericObjectPoolConfig<>();
            config.setMaxTotal(6);
            config.setMaxIdle(3);
            config.setTestOnReturn(true);
            config.setBlockWhenExhausted(false);
            pool.setConfig(config);
        });
        return changes;
    }

    private static String numbers(GenericObjectPool<?> pool) {
        return pool.getNumIdle() + " idle, " + pool.getNumActive() + " active, " + pool.getCreatedCount() + " created, "
                + pool.getDestroyedCount() + " destroyed";
    }

    /** Lends objects until there is none, and returns them and how it ended. */
    private static List<String> lent(GenericObjectPool<String> pool) throws Exception {
        List<String> lent = new ArrayList<>();
        while (lent.size() < 7) {
            try {
                lent.add(pool.borrowObject());
            } catch (NoSuchElementException e) {
                System.out.println("  " + e.getMessage().replaceFirst(": pool .*, maxTotal -?[0-9]+", ""));
                return lent;
            }
        }
        return lent;
    }

    private static void tell(Numbered factory, GenericObjectPool<?> pool, String what) {
        System.out.println("  " + what + ": " + numbers(pool) + "; " + String.join(", ", factory.asked));
        factory.asked.clear();
    }

    /** Changes a property while one object is lent and three are idle. */
    private static void play(String name, Consumer<GenericObjectPool<String>> change) throws Exception {
        System.out.println(name);
        GenericObjectPoolConfig<String> config = new GenericObjectPoolConfig<>();
        config.setMaxTotal(4);
        config.setBlockWhenExhausted(false);
        Numbered factory = new Numbered();
        GenericObjectPool<String> pool = new GenericObjectPool<>(factory, config);
        List<String> before = lent(pool);
        for (String object : before.subList(1, 4)) {
            pool.returnObject(object);
        }
        Thread.sleep(5);
        change.accept(pool);
        tell(factory, pool, "changed");
        List<String> after = lent(pool);
        System.out.println("  " + after);
        tell(factory, pool, "lent");
        pool.returnObject(before.get(0));
        for (String object : after) {
            pool.returnObject(object);
        }
        tell(factory, pool, "returned");
        Thread.sleep(5);
        pool.evict();
        tell(factory, pool, "evicted");
        pool.preparePool();
        System.out.println("  prepared: " + numbers(pool));
        pool.close();
        System.out.println("  closed: " + numbers(pool));
    }

    public static void main(String[] words) throws Exception {
        for (Map.Entry<String, Consumer<GenericObjectPool<String>>> change : changes().entrySet()) {
            play(change.getKey(), change.getValue());
        }
    }
}
