import io.github.zuphinka.Metrics;
import io.github.zuphinka.ZuphinkaPool;
import java.io.IOException;
import java.nio.charset.StandardCharsets;
import java.nio.file.Files;
import java.nio.file.Path;
import java.time.Duration;
import java.util.ArrayList;
import java.util.List;
import java.util.concurrent.FutureTask;
import java.util.concurrent.TimeUnit;
import java.util.regex.Matcher;
import java.util.regex.Pattern;
import org.apache.commons.pool2.impl.AbandonedConfig;
import org.apache.commons.pool2.impl.GenericObjectPoolConfig;

/** The metrics of pools. It writes texts to files of a folder: "course", of a pool while threads borrow, and "pools", of two pools. */
public final class Measures extends Expectations {
    private static final int THREADS = 4;
    private static final int ROUNDS = 20_000;
    private static final String NAME = "say \"b\\\"\nc";

    private Measures() {}

    private static GenericObjectPoolConfig<Object> config(int maxTotal) {
        GenericObjectPoolConfig<Object> config = new GenericObjectPoolConfig<>();
        config.setJmxEnabled(false);
        config.setMaxTotal(maxTotal);
        return config;
    }

    /** Returns the number of a pool named "n" for a metric, or -1; with {@code ,le="..."} after the name of the pool if that is not empty. */
    private static double number(ZuphinkaPool<?> pool, String metric, String bound) {
        String start = "^" + metric + Pattern.quote("{pool=\"n\"" + bound + "} ") + "(\\S+)$";
        Matcher found = Pattern.compile(start, Pattern.MULTILINE).matcher(pool.metrics("n").toString());
        return found.find() ? Double.parseDouble(found.group(1)) : -1;
    }

    private static long number(ZuphinkaPool<?> pool, String metric) {
        return (long) number(pool, "zuphinka_" + metric, "");
    }

    private static String numbers(ZuphinkaPool<?> pool) {
        return number(pool, "idle_objects") + " idle, " + number(pool, "lent_objects") + " lent, " + number(pool, "waiting_borrows") + " waiting, "
                + number(pool, "created_objects_total") + " created, " + number(pool, "destroyed_objects_total") + " destroyed, "
                + number(pool, "borrows_total") + " borrows, " + number(pool, "timeouts_total") + " timeouts, "
                + number(pool, "wait_seconds_count") + " waits, " + number(pool, "loan_seconds_count") + " loans";
    }

    private static void life() throws Exception {
        ZuphinkaPool<Object> pool = new ZuphinkaPool<>(new Plain(), config(1));
        Object lent = pool.borrowObject();
        String timeout = "NoSuchElementException: Timeout waiting for idle object";
        expect("a borrow that times out", timeout, result(() -> pool.borrowObject(5)));
        expect("one object is lent", "0 idle, 1 lent, 0 waiting, 1 created, 0 destroyed, 1 borrows, 1 timeouts, 1 waits, 0 loans", numbers(pool));
        List<Object> got = whileWaiting(pool, 1, pool::borrowObject, () -> {
            expect("a thread waits", 1L, number(pool, "waiting_borrows"));
            Thread.sleep(60);
            pool.returnObject(lent);
        });
        expect("it gets the object", List.of(lent), got);
        expect("after a return", "0 idle, 1 lent, 0 waiting, 1 created, 0 destroyed, 2 borrows, 1 timeouts, 2 waits, 1 loans", numbers(pool));
        for (String histogram : List.of("zuphinka_wait_seconds", "zuphinka_loan_seconds")) {
            double sum = number(pool, histogram + "_sum", "");
            double count = number(pool, histogram + "_count", "");
            expect("the sum of " + histogram, true, sum >= 0.06 && sum < LONGEST_MILLIS);
            expect("a long time in " + histogram, true, number(pool, histogram + "_bucket", ",le=\"0.05\"") < count);
            expect("all times in " + histogram, count, number(pool, histogram + "_bucket", ",le=\"+Inf\""));
        }
        pool.invalidateObject(lent);
        pool.addObject();
        expect("after an end", "1 idle, 0 lent, 0 waiting, 2 created, 1 destroyed, 2 borrows, 1 timeouts, 2 waits, 2 loans", numbers(pool));
        pool.close();
    }

    /** An object that is taken from its holder is destroyed, and its loan does not count. */
    private static void abandonment() throws Exception {
        AbandonedConfig abandoned = new AbandonedConfig();
        abandoned.setRemoveAbandonedOnBorrow(true);
        abandoned.setRemoveAbandonedTimeout(Duration.ofMillis(20));
        ZuphinkaPool<Object> pool = new ZuphinkaPool<>(new Plain(), config(1), abandoned);
        Object forgotten = pool.borrowObject();
        Thread.sleep(60);
        Object other = pool.borrowObject();
        pool.returnObject(forgotten);
        pool.returnObject(other);
        expect("abandoned", "1 idle, 0 lent, 0 waiting, 2 created, 1 destroyed, 2 borrows, 0 timeouts, 2 waits, 1 loans", numbers(pool));
        pool.close();
    }

    private static void texts(Path folder) throws IOException {
        ZuphinkaPool<Object> pool = new ZuphinkaPool<>(new Plain(), config(1));
        Metrics both = pool.metrics("a").and(pool.metrics(NAME));
        expect("without an end", both.toString(), both.withoutEnd() + "# EOF\n");
        StringBuilder written = new StringBuilder();
        both.writeTo(written);
        expect("written", both.toString(), written.toString());
        expect("without a name", true, result(() -> pool.metrics(null)).toString().startsWith("NullPointerException"));
        Files.write(folder.resolve("pools"), both.toString().getBytes(StandardCharsets.UTF_8));
        pool.close();
    }

    /** Reads the metrics while threads borrow, and once more at the end. */
    private static void course(Path folder) throws Exception {
        ZuphinkaPool<Object> pool = new ZuphinkaPool<>(new Plain(), config(THREADS - 1));
        List<FutureTask<Object>> works = new ArrayList<>();
        for (int number = 0; number < THREADS; number++) {
            works.add(begun(() -> {
                for (int round = 0; round < ROUNDS; round++) {
                    pool.returnObject(pool.borrowObject());
                }
                return "done";
            }));
        }
        StringBuilder texts = new StringBuilder();
        long end = System.nanoTime() + TimeUnit.MILLISECONDS.toNanos(LONGEST_MILLIS);
        while (pool.getReturnedCount() < THREADS * ROUNDS && System.nanoTime() - end < 0) {
            pool.metrics(NAME).writeTo(texts);
            Thread.sleep(1);
        }
        for (FutureTask<Object> work : works) {
            expect("a thread", "done", within(work));
        }
        pool.metrics(NAME).writeTo(texts);
        Files.write(folder.resolve("course"), texts.toString().getBytes(StandardCharsets.UTF_8));
        pool.close();
    }

    public static void main(String[] words) throws Exception {
        Path folder = Path.of(words[0]);
        life();
        abandonment();
        texts(folder);
        course(folder);
        printCounts();
    }
}
