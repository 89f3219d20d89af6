import io.github.zuphinka.Counts;
import io.github.zuphinka.Journal;
import io.github.zuphinka.Refusal;
import io.github.zuphinka.Segment;
import io.github.zuphinka.ZuphinkaPool;
import java.io.IOException;
import java.nio.charset.StandardCharsets;
import java.nio.file.Files;
import java.nio.file.Path;
import java.time.Duration;
import java.util.ArrayList;
import java.util.Collections;
import java.util.List;
import java.util.Objects;
import java.util.Set;
import java.util.TreeSet;
import java.util.concurrent.Callable;
import java.util.concurrent.FutureTask;
import java.util.concurrent.TimeUnit;
import java.util.stream.Collectors;
import org.apache.commons.pool2.BasePooledObjectFactory;
import org.apache.commons.pool2.PooledObject;
import org.apache.commons.pool2.impl.AbandonedConfig;
import org.apache.commons.pool2.impl.DefaultPooledObject;
import org.apache.commons.pool2.impl.GenericObjectPoolConfig;

/**
 * Lives of pools in each of which one allocation of the native library fails, each in turn. A call that throws for that leaves the counts as they
 * were, and succeeds when it is made again. A kept journal has the entries of a life in which none fails, and a stored one has all entries.
 *
 * <p>{@code Refusals FOLDER} writes journals to folders in this one. The native library is linked with tests/refuse_java.c. {@code Refusals heap}
 * fills the heap of the virtual machine instead, so that a segment has no memory.
 */
public final class Refusals extends Expectations {
    private static final int MOST = 12;
    /** How many objects are abandoned at once. */
    private static final int MANY = 2_000;
    /** Calls of several steps, of which those before the one that throws are taken. */
    private static final Set<String> CHANGING = Set.of("evict", "prepare", "clear", "close");
    /** Calls that must throw in some life, and calls that must throw in none. */
    private static final Set<String> THROWING = Set.of("open", "add", "borrow", "journal", "cut", "close");
    private static final Set<String> SAFE = Set.of("return", "invalidate");
    private static final long LONGEST_SECONDS = 60;
    /** One stored journal in this number is written. */
    private static final int WRITTEN = 4;

    private Refusals() {}

    private static final class Things extends BasePooledObjectFactory<Object> {
        @Override
        public Object create() {
            return new Object();
        }

        @Override
        public PooledObject<Object> wrap(Object thing) {
            return new DefaultPooledObject<>(thing);
        }
    }

    /** A kind of life: what becomes of the journal, and whether objects are tested, and so not lent in one critical section. */
    private enum Kind {
        KEPT(false),
        KEPT_TESTED(true),
        STORED(false),
        DROPPED(true);

        final boolean isTested;

        Kind(boolean isTested) {
            this.isTested = isTested;
        }
    }

    /** One life, with its segments, the calls that threw, and what was wrong. */
    private static final class Life {
        private final Kind kind;
        private final List<Segment> segments = new ArrayList<>();
        private final Set<String> throwing = new TreeSet<>();
        private final List<String> faults = new ArrayList<>();
        private boolean isSinkBroken;
        private ZuphinkaPool<Object> pool;

        Life(Kind kind) {
            this.kind = kind;
        }

        private static String countsOf(ZuphinkaPool<?> pool) {
            Counts counts = pool.getCounts();
            return counts.idle() + " " + counts.lent() + " " + counts.reserved() + " " + counts.created() + " " + counts.destroyed();
        }

        /** Makes a call, and makes it again if there was no memory. */
        private <R> R attempt(String name, Callable<R> call) throws Exception {
            String before = pool == null ? "" : countsOf(pool);
            try {
                return call.call();
            } catch (OutOfMemoryError e) {
                see(name + ": the message", true, e.getMessage().startsWith("zuphinka: "));
                throwing.add(name);
                if (pool != null && !CHANGING.contains(name)) {
                    see(name + " leaves the counts", before, countsOf(pool));
                }
                return call.call();
            }
        }

        private void see(String name, Object wanted, Object got) {
            if (!Objects.equals(wanted, got)) {
                faults.add(name + ": wanted " + wanted + ", got " + got);
            }
        }

        private void attempt(String name, Act act) throws Exception {
            attempt(name, () -> {
                act.run();
                return null;
            });
        }

        private Journal journal() {
            switch (kind) {
                case STORED:
                    return whenDue(this::store).limit(100);
                case DROPPED:
                    return Journal.dropped().limit(100);
                default:
                    return Journal.kept();
            }
        }

        private void store(Segment segment) throws IOException {
            if (isSinkBroken) {
                throw new IOException("sink");
            }
            segments.add(segment);
        }

        private ZuphinkaPool<Object> open() {
            GenericObjectPoolConfig<Object> config = new GenericObjectPoolConfig<>();
            config.setJmxEnabled(false);
            config.setMaxTotal(MOST);
            config.setMaxIdle(MOST);
            config.setMinIdle(3);
            config.setNumTestsPerEvictionRun(5);
            config.setTestWhileIdle(true);
            config.setTestOnBorrow(kind.isTested);
            config.setTestOnReturn(kind.isTested);
            AbandonedConfig abandoned = new AbandonedConfig();
            abandoned.setRemoveAbandonedOnMaintenance(kind.isTested);
            abandoned.setRemoveAbandonedTimeout(Duration.ofDays(1));
            abandoned.setUseUsageTracking(true);
            return new ZuphinkaPool<>(new Things(), config, abandoned, journal());
        }

        Life live() throws Exception {
            pool = attempt("open", this::open);
            attempt("add", pool::addObject);
            for (int objects : new int[] {1, 5, MOST}) {
                List<Object> lent = new ArrayList<>();
                while (lent.size() < objects) {
                    lent.add(attempt("borrow", () -> pool.borrowObject()));
                }
                attempt("use", () -> pool.use(lent.get(0)));
                attempt("invalidate", () -> pool.invalidateObject(lent.remove(0)));
                for (Object object : lent) {
                    attempt("return", () -> pool.returnObject(object));
                }
                attempt("evict", pool::evict);
                if (kind != Kind.STORED && objects == 5) {
                    cut();
                }
            }
            if (kind == Kind.STORED) {
                fill();
            }
            attempt("clear", pool::clear);
            attempt("prepare", pool::preparePool);
            attempt("close", pool::close);
            see("closed", "0 0 0", countsOf(pool).substring(0, 5));
            if (kind != Kind.STORED) {
                segments.add(attempt("cut", pool::cut));
            }
            return this;
        }

        private void cut() throws Exception {
            Segment whole = attempt("journal", pool::getJournal);
            Segment cut = attempt("cut", pool::cut);
            see("the text of a cut", textOf(whole), textOf(cut));
            segments.add(cut);
        }

        /** Fills the journal while the sink is broken, and goes on once it is repaired. */
        private void fill() throws Exception {
            isSinkBroken = true;
            try {
                for (;;) {
                    Object object = attempt("borrow", () -> pool.borrowObject());
                    attempt("return", () -> pool.returnObject(object));
                }
            } catch (IllegalStateException e) {
                isSinkBroken = false;
            }
            Object object = attempt("borrow", () -> pool.borrowObject());
            attempt("return", () -> pool.returnObject(object));
        }

        /** Sees that no entry is missing. How many a life makes until a stored journal is full depends on its cuts. */
        void compare(Life wanted) {
            if (kind == Kind.STORED) {
                see("entries that are stored", pool.getCounts().steps(), stored());
            } else if (kind != Kind.DROPPED && Collections.disjoint(throwing, CHANGING)) {
                see("entries", wanted.entries(), entries());
            }
        }

        private static String textOf(Segment segment) {
            return new String(segment.text(), StandardCharsets.US_ASCII);
        }

        /** Returns the entries without callers and times. */
        List<String> entries() {
            return segments.stream().flatMap(segment -> textOf(segment).lines())
                    .filter(line -> line.contains(" = "))
                    .map(line -> line.replaceFirst("^\\d+ \\d+ ", "").replaceFirst("^borrow \\d+", "borrow"))
                    .collect(Collectors.toList());
        }

        /** Returns the number of entries in the segments, if each begins where the one before it ends. */
        long stored() {
            long next = 0;
            for (Segment segment : segments) {
                next = segment.position() == next ? next + segment.entries() : Long.MIN_VALUE;
            }
            return next;
        }

        void write(Path folder) throws IOException {
            Files.createDirectories(folder);
            Files.write(folder.resolve("settings.toml"), pool.getSettingsText().getBytes(StandardCharsets.UTF_8));
            for (Segment segment : segments) {
                Files.write(folder.resolve(String.format("segment-%020d", segment.position())), segment.text());
            }
        }
    }

    /** Lives of a kind until no allocation is left to refuse. Returns the calls that threw. */
    private static Set<String> lives(Kind kind, Path folder) throws Exception {
        Refusal.refuse(0);
        Life wanted = new Life(kind).live();
        Set<String> throwing = new TreeSet<>();
        boolean isRefused = true;
        for (int number = 1; isRefused; number++) {
            Refusal.refuse(number);
            Life life = new Life(kind).live();
            isRefused = !Refusal.isPending();
            life.compare(wanted);
            expect(kind + ", allocation " + number, List.of(), life.faults);
            throwing.addAll(life.throwing);
            if (kind == Kind.STORED ? number % WRITTEN == 1 : kind != Kind.DROPPED && number == 1) {
                life.write(folder.resolve(kind + "-" + number));
            }
        }
        Refusal.refuse(0);
        return throwing;
    }

    /** Makes numbers, and keeps those that were destroyed. */
    private static final class Numbers extends BasePooledObjectFactory<Integer> {
        private final List<Integer> destroyed = new ArrayList<>();
        private int next;

        @Override
        public Integer create() {
            return next++;
        }

        @Override
        public PooledObject<Integer> wrap(Integer number) {
            return new DefaultPooledObject<>(number);
        }

        @Override
        public void destroyObject(PooledObject<Integer> pooled) {
            destroyed.add(pooled.getObject());
        }
    }

    /** The removal of many abandoned objects asks once of each whether it is taken from its holder. */
    private static void reclaim() throws Exception {
        Numbers factory = new Numbers();
        GenericObjectPoolConfig<Integer> config = new GenericObjectPoolConfig<>();
        config.setJmxEnabled(false);
        config.setMaxTotal(MANY);
        AbandonedConfig abandoned = new AbandonedConfig();
        abandoned.setRemoveAbandonedOnMaintenance(true);
        abandoned.setRemoveAbandonedTimeout(Duration.ZERO);
        ZuphinkaPool<Integer> pool = new ZuphinkaPool<>(factory, config, abandoned);
        List<Integer> lent = new ArrayList<>();
        while (lent.size() < MANY) {
            lent.add(pool.borrowObject());
        }
        long before = Refusal.questions();
        pool.evict();
        expect("questions about abandoned objects", (long) MANY, Refusal.questions() - before);
        expect("they are destroyed in their order", lent, factory.destroyed);
        pool.close();
    }

    /** Fills the heap until no segment has memory in it and the journal is full, and goes on once the heap is empty again. */
    private static void heap() throws Exception {
        long[] next = {0};
        ZuphinkaPool<Object> pool = new ZuphinkaPool<>(new Things(), new GenericObjectPoolConfig<>(), null, whenDue(segment -> {
            next[0] = segment.position() == next[0] ? next[0] + segment.entries() : Long.MIN_VALUE;
        }).limit(400_000));
        List<byte[]> ballast = new ArrayList<>();
        try {
            for (;;) {
                ballast.add(new byte[1 << 20]);
            }
        } catch (OutOfMemoryError e) {
            ballast.subList(0, 2).clear();
        }
        try {
            for (;;) {
                pool.returnObject(pool.borrowObject());
            }
        } catch (OutOfMemoryError e) {
            ballast.clear();
            expect("a full heap", "zuphinka: no memory to cut the journal", e.getMessage());
        }
        FutureTask<Integer> pair = new FutureTask<>(() -> {
            pool.returnObject(pool.borrowObject());
            return 1;
        });
        Thread thread = new Thread(pair);
        thread.setDaemon(true);
        thread.start();
        expect("another thread goes on", 1, pair.get(LONGEST_SECONDS, TimeUnit.SECONDS));
        pool.close();
        expect("all is stored", pool.getCounts().steps(), next[0]);
    }

    public static void main(String[] words) throws Exception {
        if (words[0].equals("heap")) {
            heap();
        } else {
            Set<String> throwing = new TreeSet<>();
            for (Kind kind : Kind.values()) {
                throwing.addAll(lives(kind, Path.of(words[0])));
            }
            reclaim();
            expect("calls that throw", THROWING, throwing.stream().filter(THROWING::contains).collect(Collectors.toSet()));
            expect("calls that never do", Set.of(), throwing.stream().filter(SAFE::contains).collect(Collectors.toSet()));
        }
        printCounts();
    }
}
