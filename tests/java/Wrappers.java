import io.github.zuphinka.TimedObject;
import io.github.zuphinka.ZuphinkaPool;
import java.io.PrintWriter;
import java.io.StringWriter;
import java.time.Duration;
import java.time.Instant;
import java.util.ArrayDeque;
import java.util.Deque;
import java.util.List;
import java.util.Random;
import java.util.function.Function;
import org.apache.commons.pool2.BasePooledObjectFactory;
import org.apache.commons.pool2.PooledObject;
import org.apache.commons.pool2.PooledObjectState;
import org.apache.commons.pool2.TrackedUse;
import org.apache.commons.pool2.impl.AbandonedConfig;
import org.apache.commons.pool2.impl.DefaultPooledObject;
import org.apache.commons.pool2.impl.GenericObjectPoolConfig;

/** A TimedObject does what a DefaultPooledObject does, and a pool tells it the times of its loans. */
public final class Wrappers extends Expectations {
    private static final int RUNS = 200;
    private static final int STEPS = 30;
    private static final List<Function<PooledObject<Object>, Instant>> TIMES = List.of(PooledObject::getCreateInstant,
            PooledObject::getLastBorrowInstant, PooledObject::getLastReturnInstant, PooledObject::getLastUsedInstant);

    private Wrappers() {}

    /** Takes a step of a wrapper, and returns what that says. */
    private static Object step(int kind, PooledObject<Object> pooled, Deque<PooledObject<Object>> queue) {
        switch (kind) {
            case 0:
            case 1:
                return pooled.allocate();
            case 2:
            case 3:
                return pooled.deallocate();
            case 4:
                return pooled.startEvictionTest();
            case 5:
                return pooled.endEvictionTest(queue);
            case 6:
                pooled.markReturning();
                break;
            case 7:
                pooled.markAbandoned();
                break;
            case 8:
                pooled.use();
                break;
            default:
                pooled.invalidate();
        }
        return "done";
    }

    /** Returns which of the times of a wrapper are the same ones. */
    private static String pattern(PooledObject<Object> pooled) {
        StringBuilder pattern = new StringBuilder();
        for (Function<PooledObject<Object>, Instant> time : TIMES) {
            for (Function<PooledObject<Object>, Instant> other : TIMES) {
                pattern.append(time.apply(pooled).compareTo(other.apply(pooled)) < 0 ? '<' : '-');
            }
        }
        return pattern.toString();
    }

    private static String facts(PooledObject<Object> pooled, Deque<PooledObject<Object>> queue) {
        return pooled.getState() + " " + pooled.getBorrowedCount() + " " + queue.size() + " " + pattern(pooled);
    }

    /** Waits until the wall clock says another time. */
    private static void tick() {
        Instant before = Instant.now();
        while (!Instant.now().isAfter(before)) {
            Thread.onSpinWait();
        }
    }

    /** Both kinds take the same random steps. The last state of a wrapper is the invalid one. */
    private static void sameSteps(int seed) {
        Random random = new Random(seed);
        Object object = new Object();
        List<PooledObject<Object>> both = List.of(new DefaultPooledObject<>(object), new TimedObject<>(object));
        List<Deque<PooledObject<Object>>> queues = List.of(new ArrayDeque<>(), new ArrayDeque<>());
        for (int count = 0; count < STEPS; count++) {
            int kind = random.nextInt(count + 1 < STEPS ? 9 : 10);
            tick();
            expect("step " + kind + " of run " + seed, step(kind, both.get(0), queues.get(0)), step(kind, both.get(1), queues.get(1)));
            expect("after step " + kind + " of run " + seed, facts(both.get(0), queues.get(0)), facts(both.get(1), queues.get(1)));
        }
        expect("the text", both.get(0).toString(), both.get(1).toString());
        expect("the order", both.get(1).getLastReturnInstant().compareTo(both.get(0).getLastReturnInstant()), both.get(1).compareTo(both.get(0)));
    }

    private static String stacks(PooledObject<Object> pooled) {
        pooled.setLogAbandoned(true);
        pooled.setRequireFullStackTrace(true);
        pooled.allocate();
        pooled.use();
        StringWriter written = new StringWriter();
        pooled.printStackTrace(new PrintWriter(written, true));
        return written.toString().replaceAll("[0-9]+", "0").replaceAll("\tat .*\n", "");
    }

    private static void others() throws Exception {
        expect("stacks", stacks(new DefaultPooledObject<>("object")), stacks(new TimedObject<>("object")));
        Instant used = Instant.now().plusSeconds(60);
        TrackedUse tracked = new TrackedUse() {
            @Override
            @SuppressWarnings("deprecation") // the interface has it
            public long getLastUsed() {
                return used.toEpochMilli();
            }

            @Override
            public Instant getLastUsedInstant() {
                return used;
            }
        };
        expect("an object that tells its last use", used, new TimedObject<>(tracked).getLastUsedInstant());
        PooledObject<Object> pooled = new TimedObject<>("object");
        Thread.sleep(20);
        expect("idle", true, pooled.getIdleDuration().toMillis() >= 20);
        pooled.allocate();
        Thread.sleep(20);
        expect("active", true, pooled.getActiveDuration().toMillis() >= 20);
        pooled.deallocate();
        Duration active = pooled.getActiveDuration();
        Thread.sleep(1);
        expect("no longer active", active, pooled.getActiveDuration());
        expect("not idle before", true, pooled.getIdleDuration().compareTo(active.plusMillis(LONGEST_MILLIS)) < 0);
    }

    /** Times are told while another thread has the monitor of the wrapper, as Commons Pool has it while it looks for abandoned objects. */
    private static void timesUnderMonitor() throws Exception {
        PooledObject<Object> pooled = new TimedObject<>("object");
        synchronized (pooled) {
            Object told = within(begun(() -> {
                TIMES.forEach(time -> time.apply(pooled));
                return pooled.getIdleDuration().isNegative() || pooled.getActiveDuration().isNegative() ? "negative" : "told";
            }));
            expect("times under the monitor", "told", told);
        }
    }

    /** Has the wrapper of its only object, with which it works for some time. */
    private static class Kept extends BasePooledObjectFactory<Object> {
        PooledObject<Object> kept;

        @Override
        public Object create() {
            return new Object();
        }

        @Override
        public PooledObject<Object> wrap(Object object) {
            kept = new TimedObject<>(object);
            return kept;
        }
    }

    /** Notes the times of its wrapper. */
    private static final class Hooked extends Kept {
        Instant lent;
        Instant passivated;

        @Override
        public void activateObject(PooledObject<Object> pooled) throws Exception {
            expect("the state at an activation", PooledObjectState.ALLOCATED, pooled.getState());
            lent = pooled.getLastBorrowInstant();
            Thread.sleep(5);
        }

        @Override
        public void passivateObject(PooledObject<Object> pooled) throws Exception {
            Thread.sleep(5);
            passivated = Instant.now();
        }
    }

    private static void expectWithin(String name, Instant first, Instant time, Instant last) {
        expect(name + ": " + first + ".." + time + ".." + last, true, !time.isBefore(first) && !time.isAfter(last));
    }

    private static ZuphinkaPool<Object> pool(Kept factory, AbandonedConfig abandoned) {
        GenericObjectPoolConfig<Object> config = new GenericObjectPoolConfig<>();
        config.setJmxEnabled(false);
        config.setMaxTotal(1);
        return new ZuphinkaPool<>(factory, config, abandoned);
    }

    /** A loan begins when the object is taken, after a wait and before it is activated, and ends after it was passivated. */
    private static void loans(Kept factory, AbandonedConfig abandoned) throws Exception {
        ZuphinkaPool<Object> pool = pool(factory, abandoned);
        Object object = pool.borrowObject();
        Instant returning = Instant.now();
        whileWaiting(pool, 1, pool::borrowObject, () -> {
            Thread.sleep(20);
            pool.returnObject(object);
            expectWithin("a return", returning.plusMillis(20), factory.kept.getLastReturnInstant(), Instant.now());
        });
        expectWithin("a loan after a wait", returning.plusMillis(20), factory.kept.getLastBorrowInstant(), Instant.now());
        expect("lent", PooledObjectState.ALLOCATED, factory.kept.getState());
        expect("loans", 2L, factory.kept.getBorrowedCount());
        Instant last = Instant.now();
        pool.returnObject(object);
        expectWithin("the last return", last, factory.kept.getLastReturnInstant(), Instant.now());
        expect("returned", PooledObjectState.IDLE, factory.kept.getState());
        pool.close();
        expect("destroyed", PooledObjectState.INVALID, factory.kept.getState());
    }

    private static void hooks() throws Exception {
        Hooked factory = new Hooked();
        loans(factory, null);
        expect("a loan begins before the activation", factory.lent, factory.kept.getLastBorrowInstant());
        expectWithin("a return ends after the passivation", factory.passivated, factory.kept.getLastReturnInstant(), Instant.now());
    }

    public static void main(String[] words) throws Exception {
        for (int seed = 0; seed < RUNS; seed++) {
            sameSteps(seed);
        }
        others();
        timesUnderMonitor();
        loans(new Kept(), new AbandonedConfig());
        hooks();
        printCounts();
    }
}
