import io.github.zuphinka.Journal;
import io.github.zuphinka.ZuphinkaPool;
import java.nio.file.Path;
import java.time.Duration;
import java.util.ArrayList;
import java.util.List;
import java.util.concurrent.atomic.AtomicInteger;
import org.apache.commons.pool2.PooledObject;
import org.apache.commons.pool2.impl.GenericObjectPoolConfig;

/**
 * Objects that are destroyed for their age: at their return, and by eviction runs. {@code Lifetimes FOLDER} writes the journals to folders in this one.
 */
public final class Lifetimes extends Expectations {
    private static final Duration SHORT = Duration.ofMillis(1);
    private static final Duration LONG = Duration.ofHours(1);

    private Lifetimes() {}

    /** Counts its tests. */
    private static final class Tested extends Plain {
        private final AtomicInteger tests = new AtomicInteger();

        @Override
        public boolean validateObject(PooledObject<Object> pooled) {
            tests.incrementAndGet();
            return true;
        }
    }

    private static ZuphinkaPool<Object> pool(Tested factory, Path folder) throws Exception {
        GenericObjectPoolConfig<Object> config = new GenericObjectPoolConfig<>();
        config.setJmxEnabled(false);
        config.setMinEvictableIdleTime(Duration.ofMillis(-1));
        return new ZuphinkaPool<>(factory, config, null, Journal.inFolder(folder));
    }

    private static List<Object> lend(ZuphinkaPool<Object> pool, int number) throws Exception {
        List<Object> lent = new ArrayList<>();
        while (lent.size() < number) {
            lent.add(pool.borrowObject());
        }
        return lent;
    }

    private static void atReturn(Path folder) throws Exception {
        Tested factory = new Tested();
        ZuphinkaPool<Object> pool = pool(factory, folder);
        expect("no lifetime at first", Duration.ZERO, pool.getMaxLifetime());
        pool.setMaxLifetime(LONG);
        lend(pool, 2).forEach(pool::returnObject);
        expect("objects that are young", "2 idle, 0 active, 2 created, 0 destroyed", counts(pool));
        List<Object> lent = lend(pool, 1);
        pool.setMaxLifetime(SHORT);
        Thread.sleep(5);
        pool.returnObject(lent.get(0));
        expect("one that is returned too old", "1 idle, 0 active, 2 created, 1 destroyed", counts(pool));
        Object other = pool.borrowObject();
        expect("one that is too old is lent", "0 idle, 1 active, 2 created, 1 destroyed", counts(pool));
        pool.returnObject(other);
        expect("and destroyed at its return", "0 idle, 0 active, 2 created, 2 destroyed", counts(pool));
        expect("a second return", "IllegalStateException: Returned object not currently part of this pool", ending(() -> pool.returnObject(other)));
        pool.setMaxLifetime(Duration.ZERO);
        Object late = pool.borrowObject();
        Thread.sleep(5);
        pool.returnObject(late);
        expect("without a lifetime", "1 idle, 0 active, 3 created, 2 destroyed", counts(pool));
        pool.close();
        expect("no tests", 0, factory.tests.get());
    }

    private static void whileIdle(Path folder) throws Exception {
        Tested factory = new Tested();
        ZuphinkaPool<Object> pool = pool(factory, folder);
        pool.setNumTestsPerEvictionRun(2);
        lend(pool, 6).forEach(pool::returnObject);
        pool.setMaxLifetime(LONG);
        pool.evict();
        expect("objects that are young", "6 idle, 0 active, 6 created, 0 destroyed", counts(pool));
        expect("their ages are no tests", 0, factory.tests.get());
        pool.setTestWhileIdle(true);
        pool.evict();
        expect("those that are tested, of a run over all", 2, factory.tests.get());
        pool.setNumTestsPerEvictionRun(-2);
        pool.evict();
        expect("half of them", 2 + 3, factory.tests.get());
        Thread.sleep(5);
        pool.setMaxLifetime(SHORT);
        pool.setMinIdle(1);
        pool.maintain();
        expect("all that are too old, and a new one", "1 idle, 0 active, 7 created, 6 destroyed", counts(pool));
        expect("by the evictor", 6L, pool.getDestroyedByEvictorCount());
        expect("without a test", 2 + 3, factory.tests.get());
        pool.close();
    }

    public static void main(String[] words) throws Exception {
        Path folder = Path.of(words[0]);
        atReturn(folder.resolve("returned"));
        whileIdle(folder.resolve("idle"));
        printCounts();
    }
}
