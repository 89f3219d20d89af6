import io.github.zuphinka.Journal;
import io.github.zuphinka.ZuphinkaPool;
import java.io.IOException;
import java.nio.charset.StandardCharsets;
import java.nio.file.Files;
import java.nio.file.Path;
import java.time.Duration;
import java.util.ArrayList;
import java.util.List;
import java.util.concurrent.CountDownLatch;
import java.util.concurrent.TimeUnit;
import java.util.concurrent.atomic.AtomicLong;
import java.util.stream.Collectors;
import java.util.stream.Stream;
import org.apache.commons.pool2.impl.GenericObjectPoolConfig;

/**
 * Journals that are stored from time to time, while an object is lent: in files that grow, beside the names of the callers. {@code Flushes FOLDER} writes
 * the journals to folders in this one.
 */
public final class Flushes extends Expectations {
    private static final Duration AT_ONCE = Duration.ofNanos(1);

    private Flushes() {}

    private static ZuphinkaPool<Object> pool(Journal journal) {
        GenericObjectPoolConfig<Object> config = new GenericObjectPoolConfig<>();
        config.setJmxEnabled(false);
        return new ZuphinkaPool<>(new Plain(), config, null, journal);
    }

    private static void pairs(ZuphinkaPool<Object> pool, int number) throws Exception {
        for (int pair = 0; pair < number; pair++) {
            pool.returnObject(pool.borrowObject());
        }
    }

    private static List<Path> segments(ZuphinkaPool<?> pool) throws IOException {
        try (Stream<Path> files = Files.list(pool.getJournalFolder())) {
            return files.filter(file -> file.getFileName().toString().startsWith("segment-")).sorted().collect(Collectors.toList());
        }
    }

    private static long entries(ZuphinkaPool<?> pool) throws IOException {
        long entries = 0;
        for (Path segment : segments(pool)) {
            entries += Files.readString(segment, StandardCharsets.US_ASCII).lines().filter(line -> line.matches("\\d+ .* = .*")).count();
        }
        return entries;
    }

    /** The loan of an object that is never returned is stored while the pool is open, and so is what a closed pool does. */
    private static void leak(Path folder) throws Exception {
        ZuphinkaPool<Object> pool = pool(Journal.inFolder(folder).storeEvery(Duration.ofMillis(1)));
        List<Object> leaked = new ArrayList<>();
        while (leaked.size() < 7) {
            leaked.add(pool.borrowObject());
        }
        Object other = pool.borrowObject();
        until(() -> entries(pool) == pool.getCounts().steps());
        expect("the loans of objects that are not returned", 16L, entries(pool));
        pool.close();
        long closed = pool.getCounts().steps();
        expect("the close is stored", closed, entries(pool));
        pool.returnObject(other);
        until(() -> entries(pool) == pool.getCounts().steps());
        expect("the return after it, of fewer entries than objects are lent", pool.getCounts().steps(), entries(pool));
        expect("it has entries", true, pool.getCounts().steps() > closed && pool.getCounts().lent() == 7);
        until(() -> threads().isEmpty());
        expect("threads of a closed pool", List.of(), threads());
        leaked.forEach(pool::returnObject);
    }

    /** Returns the names of the threads of pools. */
    private static List<String> threads() {
        return Thread.getAllStackTraces().keySet().stream().map(Thread::getName).filter(name -> name.startsWith("zuphinka")).collect(Collectors.toList());
    }

    /** The entries of several flushes are in one file, with one base. */
    private static void oneFile(Path folder) throws Exception {
        ZuphinkaPool<Object> pool = pool(whenDue(folder));
        for (int flush = 0; flush < 10; flush++) {
            pairs(pool, 1);
            pool.flushJournal();
            expect("entries after a flush", pool.getCounts().steps(), entries(pool));
        }
        expect("files of ten flushes", 1, segments(pool).size());
        pool.setMaxTotal(9);
        pairs(pool, 1);
        pool.close();
        expect("files of a change of the settings", 2, segments(pool).size());
    }

    /** No file has more entries than a check allows, also while more objects are lent than at the ends of flushes. */
    private static void fullFiles(Path folder) throws Exception {
        ZuphinkaPool<Object> pool = pool(whenDue(folder).limit(80));
        for (int round = 0; round < 10; round++) {
            pairs(pool, 3);
            pool.flushJournal();
            List<Object> lent = new ArrayList<>();
            while (lent.size() < 8) {
                lent.add(pool.borrowObject());
            }
            for (Object object : lent) {
                pool.invalidateObject(object);
            }
            pool.flushJournal();
        }
        pool.close();
        expect("entries in small files", pool.getCounts().steps(), entries(pool));
        expect("several files", true, segments(pool).size() > 5);
    }

    /** A file that has reached 16 MiB gets no more entries. */
    private static void longFiles(Path folder) throws Exception {
        ZuphinkaPool<Object> pool = pool(whenDue(folder).limit(1L << 32));
        long least = 16 << 20;
        while (segments(pool).size() < 2) {
            pairs(pool, 50_000);
            pool.flushJournal();
        }
        long first = Files.size(segments(pool).get(0));
        expect("the bytes of a long file", true, first >= least && first < least + (10 << 20));
        pool.close();
    }

    /** A sink of the user's own gets the loan of an object that is not returned, also if no time is set for that. */
    private static void usualSink() throws Exception {
        AtomicLong stored = new AtomicLong();
        ZuphinkaPool<Object> pool = pool(Journal.storedBy(segment -> stored.addAndGet(segment.entries())));
        pool.borrowObject();
        until(() -> stored.get() == pool.getCounts().steps());
        expect("the loan in a sink", 2L, stored.get());
        pool.close();
    }

    /** A sink that stores a flush has no lock of the pool, and is called no more than there are entries. */
    private static void blockedSink() throws Exception {
        CountDownLatch entered = new CountDownLatch(1);
        CountDownLatch told = new CountDownLatch(1);
        AtomicLong stored = new AtomicLong();
        ZuphinkaPool<Object> pool = pool(Journal.storedBy(segment -> {
            entered.countDown();
            within(begun(() -> told.await(LONGEST_MILLIS, TimeUnit.MILLISECONDS)));
            stored.addAndGet(segment.entries());
        }).storeEvery(AT_ONCE));
        Object lent = pool.borrowObject();
        entered.await();
        expect("calls beside a flush", "done", within(begun(() -> {
            pairs(pool, 100);
            return "done";
        })));
        told.countDown();
        pool.returnObject(lent);
        until(() -> stored.get() == pool.getCounts().steps());
        expect("all entries come to the sink", pool.getCounts().steps(), stored.get());
        pool.close();
    }

    /** A sink that fails gets the entries again, and the failure is told. */
    private static void failingSink() throws Exception {
        AtomicLong stored = new AtomicLong();
        boolean[] isBroken = {true};
        List<Exception> noted = new ArrayList<>();
        GenericObjectPoolConfig<Object> config = new GenericObjectPoolConfig<>();
        config.setJmxEnabled(false);
        Journal journal = Journal.storedBy(segment -> {
            if (isBroken[0]) {
                isBroken[0] = false;
                throw new IOException("sink");
            }
            stored.addAndGet(segment.entries());
        }).storeEvery(AT_ONCE);
        ZuphinkaPool<Object> pool = new ZuphinkaPool<>(new Plain(), config, null, journal) {
            @Override
            protected void swallowed(Exception failure) {
                noted.add(failure);
            }
        };
        pool.borrowObject();
        until(() -> stored.get() == pool.getCounts().steps());
        expect("entries after a failure", 2L, stored.get());
        expect("the failure is told", List.of("sink"), noted.stream().map(Exception::getMessage).collect(Collectors.toList()));
        pool.close();
    }

    /** The names of the threads that took steps are in a file, once each. */
    private static void callers(Path folder) throws Exception {
        ZuphinkaPool<Object> pool = pool(whenDue(folder));
        List<String> wanted = new ArrayList<>();
        for (String name : List.of("worker-1", "a name\nof \u0085 two lines", "\u017Buraw", "")) {
            Thread thread = new Thread(() -> {
                String shown = name.replace('\n', '?').replace('\u0085', '?');
                wanted.addAll(name.isEmpty() ? List.of() : List.of(ZuphinkaPool.callerNumber() + " " + shown));
                result(() -> {
                    pairs(pool, 2);
                    return "done";
                });
            }, name);
            thread.start();
            thread.join();
            pool.flushJournal();
        }
        expect("the names of callers", wanted, Files.readAllLines(pool.getJournalFolder().resolve("callers.txt")));
        pool.close();
        expect("the closing thread has a name too", Thread.currentThread().getName(), last(Files.readAllLines(pool.getJournalFolder().resolve("callers.txt"))));
    }

    private static String last(List<String> lines) {
        return lines.get(lines.size() - 1).replaceFirst("\\d+ ", "");
    }

    public static void main(String[] words) throws Exception {
        Path folder = Path.of(words[0]);
        leak(folder.resolve("leak"));
        oneFile(folder.resolve("one"));
        fullFiles(folder.resolve("full"));
        longFiles(folder.resolve("long"));
        usualSink();
        blockedSink();
        failingSink();
        callers(folder.resolve("callers"));
        printCounts();
    }
}
