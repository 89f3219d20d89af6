import io.github.zuphinka.Leak;
import io.github.zuphinka.ZuphinkaPool;
import java.time.Duration;
import java.util.ArrayList;
import java.util.Collections;
import java.util.List;
import java.util.stream.Collectors;
import org.apache.commons.pool2.impl.GenericObjectPoolConfig;

/** Loans that last longer than a limit: each is told once, with its thread, and with its stack if that is asked for. */
public final class Overdue extends Expectations {
    private static final Duration SHORT = Duration.ofMillis(1);

    private Overdue() {}

    private static ZuphinkaPool<Object> pool(List<Leak> told) {
        GenericObjectPoolConfig<Object> config = new GenericObjectPoolConfig<>();
        config.setJmxEnabled(false);
        config.setJmxNamePrefix("orders");
        ZuphinkaPool<Object> pool = new ZuphinkaPool<>(new Plain(), config);
        pool.setLeakListener(told::add);
        return pool;
    }

    /** Borrows in a thread of a name. */
    private static Object lentTo(String name, ZuphinkaPool<Object> pool) throws Exception {
        Object[] lent = new Object[1];
        Thread thread = new Thread(() -> lent[0] = result(pool::borrowObject), name);
        thread.start();
        thread.join();
        return lent[0];
    }

    private static void once() throws Exception {
        List<Leak> told = Collections.synchronizedList(new ArrayList<>());
        ZuphinkaPool<Object> pool = pool(told);
        expect("it is off at first", Duration.ZERO, pool.getLeakDetectionThreshold());
        Object before = pool.borrowObject();
        pool.setLeakDetectionThreshold(SHORT);
        Object first = lentTo("worker-3", pool);
        until(() -> told.size() == 1);
        Object second = lentTo("worker-4", pool);
        until(() -> told.size() == 2);
        expect("who has them", List.of("worker-3", "worker-4"), told.stream().map(Leak::callerName).collect(Collectors.toList()));
        Leak leak = told.get(0);
        expect("it is longer than the limit", true, leak.duration().compareTo(SHORT) > 0);
        expect("no stack", null, leak.stack());
        expect("its text", "pool orders: object 1 has been lent for " + leak.duration().toMillis() + " ms, to caller " + leak.callerNumber()
                + ", thread worker-3", leak.toString());
        pool.returnObject(first);
        Object again = lentTo("worker-5", pool);
        until(() -> told.size() == 3);
        expect("the next loan of the same object", List.of(first, 1L, "worker-5"), List.of(again, told.get(2).objectNumber(), told.get(2).callerName()));
        for (Object lent : List.of(before, second, again)) {
            pool.returnObject(lent);
        }
        pool.close();
        expect("each is told once, and none that began before", 3, told.size());
    }

    /** Loans that are over, or shorter than the limit, are not told. */
    private static void none() throws Exception {
        List<Leak> told = Collections.synchronizedList(new ArrayList<>());
        ZuphinkaPool<Object> pool = pool(told);
        pool.setLeakDetectionThreshold(Duration.ofHours(1));
        Object lent = pool.borrowObject();
        pool.returnObject(pool.borrowObject());
        pool.setLeakDetectionThreshold(Duration.ofNanos(1));
        until(() -> told.size() == 1);
        pool.setLeakDetectionThreshold(Duration.ZERO);
        pool.borrowObject();
        pool.returnObject(lent);
        until(() -> threads().isEmpty());
        expect("no thread looks for leaks", List.of(), threads());
        expect("the loan that there was", 1, told.size());
        pool.setLeakDetectionThreshold(SHORT);
        expect("a thread looks for them", List.of("zuphinka-leaks"), threads());
        pool.close();
        until(() -> threads().isEmpty());
        expect("none of a closed pool", List.of(), threads());
        pool.setLeakDetectionThreshold(SHORT);
        expect("nor later", List.of(), threads());
    }

    private static List<String> threads() {
        return Thread.getAllStackTraces().keySet().stream().map(Thread::getName).filter(name -> name.startsWith("zuphinka")).collect(Collectors.toList());
    }

    private static Object lentHere(ZuphinkaPool<Object> pool) throws Exception {
        return pool.borrowObject();
    }

    private static void stacks() throws Exception {
        List<Leak> told = Collections.synchronizedList(new ArrayList<>());
        ZuphinkaPool<Object> pool = pool(told);
        pool.setLeakStackTraces(true);
        pool.setLeakDetectionThreshold(SHORT);
        lentHere(pool);
        until(() -> told.size() == 1);
        boolean isThere = List.of(told.get(0).stack().getStackTrace()).stream().anyMatch(frame -> frame.getMethodName().equals("lentHere"));
        expect("the stack of the loan", true, isThere);
        pool.close();
    }

    /** What a listener throws is swallowed, and the next leak is told. */
    private static void failingListener() throws Exception {
        List<String> noted = Collections.synchronizedList(new ArrayList<>());
        GenericObjectPoolConfig<Object> config = new GenericObjectPoolConfig<>();
        config.setJmxEnabled(false);
        ZuphinkaPool<Object> pool = new ZuphinkaPool<>(new Plain(), config) {
            @Override
            protected void swallowed(Exception failure) {
                noted.add(failure.getMessage());
            }
        };
        pool.setLeakListener(leak -> {
            throw new IllegalArgumentException("listener " + leak.objectNumber());
        });
        pool.setLeakDetectionThreshold(SHORT);
        pool.borrowObject();
        until(() -> noted.size() == 1);
        pool.borrowObject();
        until(() -> noted.size() == 2);
        expect("failures of the listener", List.of("listener 0", "listener 1"), noted);
        pool.close();
    }

    public static void main(String[] words) throws Exception {
        once();
        none();
        stacks();
        failingListener();
        printCounts();
    }
}
