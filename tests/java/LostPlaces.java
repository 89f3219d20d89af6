import java.io.IOException;
import java.io.InputStream;
import java.time.Duration;
import java.util.Properties;
import java.util.concurrent.CountDownLatch;
import java.util.concurrent.FutureTask;
import java.util.concurrent.Semaphore;
import org.apache.commons.pool2.BasePooledObjectFactory;
import org.apache.commons.pool2.PooledObject;
import org.apache.commons.pool2.impl.DefaultPooledObject;
import org.apache.commons.pool2.impl.GenericObjectPool;
import org.apache.commons.pool2.impl.GenericObjectPoolConfig;

/** What the first table of README.md says of a place that is lost and of a borrow that is not woken: of ZuphinkaPool, and of Commons Pool 2.11.1. */
public final class LostPlaces extends Expectations {
    private static final String COMPARED = "2.11.1";
    private static final Duration SHORT = Duration.ofMillis(300);
    private static final Duration LONG = Duration.ofMillis(LONGEST_MILLIS);

    /** Makes objects whose passivation fails until the factory is mended. Each test waits for a permit, and then fails. */
    private static final class Flawed extends BasePooledObjectFactory<String> {
        volatile boolean isMended;
        final CountDownLatch isTesting = new CountDownLatch(1);
        final Semaphore mayGoOn = new Semaphore(0);

        @Override
        public String create() {
            return "an object";
        }

        @Override
        public PooledObject<String> wrap(String object) {
            return new DefaultPooledObject<>(object);
        }

        @Override
        public void passivateObject(PooledObject<String> object) throws Exception {
            if (!isMended) {
                throw new Exception("not passivated");
            }
        }

        @Override
        public boolean validateObject(PooledObject<String> object) {
            isTesting.countDown();
            mayGoOn.acquireUninterruptibly();
            return false;
        }
    }

    private LostPlaces() {}

    private static EitherPool<String> open(String library, Flawed factory) {
        GenericObjectPoolConfig<String> config = new GenericObjectPoolConfig<>();
        config.setMaxTotal(1);
        config.setTestWhileIdle(true);
        config.setJmxEnabled(false);
        return EitherPool.of(library, factory, config, null);
    }

    /** Adds an object whose passivation fails. Returns how many objects count as active then, and what a borrow gets. */
    private static String afterAddition(String library) throws Exception {
        Flawed factory = new Flawed();
        EitherPool<String> pool = open(library, factory);
        ending(pool.calls::addObject);
        factory.isMended = true;
        return pool.calls.getNumActive() + " active, " + gets(result(() -> pool.borrow(SHORT)));
    }

    /** Returns what a borrow gets that waits while the only object fails its test in an eviction. */
    private static String besideEviction(String library, Duration longest) throws Exception {
        Flawed factory = new Flawed();
        factory.isMended = true;
        EitherPool<String> pool = open(library, factory);
        pool.calls.addObject();
        FutureTask<Object> eviction = begun(() -> ending(pool::evict));
        factory.isTesting.await();
        FutureTask<Object> borrow = begun(() -> pool.borrow(longest));
        while (pool.waiters() == 0) {
            Thread.sleep(1);
        }
        factory.mayGoOn.release();
        within(eviction);
        return gets(within(borrow));
    }

    private static String gets(Object result) {
        return result.equals("an object") ? "an object" : "none";
    }

    /** Returns the version of Commons Pool. */
    private static String version() throws IOException {
        Properties properties = new Properties();
        try (InputStream file = GenericObjectPool.class.getResourceAsStream("/META-INF/maven/org.apache.commons/commons-pool2/pom.properties")) {
            if (file != null) {
                properties.load(file);
            }
        }
        return properties.getProperty("version");
    }

    public static void main(String[] words) throws Exception {
        expect("zuphinka, after an addition that failed", "0 active, an object", afterAddition("zuphinka"));
        expect("zuphinka, beside an eviction", "an object", besideEviction("zuphinka", LONG));
        if (COMPARED.equals(version())) {
            expect("commons-pool, after an addition that failed", "1 active, none", afterAddition("commons-pool"));
            expect("commons-pool, beside an eviction", "none", besideEviction("commons-pool", SHORT));
        }
        printCounts();
    }
}
