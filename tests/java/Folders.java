import io.github.zuphinka.Journal;
import io.github.zuphinka.Parts;
import io.github.zuphinka.Refusal;
import io.github.zuphinka.Segment;
import io.github.zuphinka.ZuphinkaPool;
import java.io.ByteArrayOutputStream;
import java.io.IOException;
import java.io.OutputStream;
import java.lang.management.ManagementFactory;
import java.nio.charset.StandardCharsets;
import java.nio.file.Files;
import java.nio.file.Path;
import java.time.Duration;
import java.time.Instant;
import java.time.temporal.ChronoUnit;
import java.util.ArrayList;
import java.util.Arrays;
import java.util.Collections;
import java.util.Comparator;
import java.util.List;
import java.util.Locale;
import java.util.Set;
import java.util.stream.Collectors;
import java.util.stream.Stream;
import javax.management.MBeanServer;
import javax.management.ObjectName;
import org.apache.commons.pool2.BasePooledObjectFactory;
import org.apache.commons.pool2.PooledObject;
import org.apache.commons.pool2.impl.DefaultPooledObject;
import org.apache.commons.pool2.impl.GenericObjectPoolConfig;

/**
 * Journals in folders: each pool has one of its own, a folder stays the same whatever happens to it, and all entries are stored, of any length.
 *
 * <p>{@code Folders FOLDER} writes the journals to folders in this one, and changes its current folder. The native library is linked with
 * tests/refuse_java.c, and has parts of 512 bytes.
 */
public final class Folders extends Expectations {
    private static final String FIRST = "segment-00000000000000000000";
    private static final String SETTINGS = "settings.toml";
    /** The files of a folder whose pool had one caller. */
    private static final List<String> FILES = List.of("callers.txt", FIRST, SETTINGS, "start.toml");

    private Folders() {}

    /** A call that may fail. */
    private interface Act {
        void run() throws IOException;
    }

    /** Makes texts, and fails to destroy them if it is told to. */
    private static final class Texts extends BasePooledObjectFactory<String> {
        volatile boolean isBroken;
        volatile Act during = () -> {};

        @Override
        public String create() throws IOException {
            during.run();
            return new String("text");
        }

        @Override
        public PooledObject<String> wrap(String text) {
            return new DefaultPooledObject<>(text);
        }

        @Override
        public void destroyObject(PooledObject<String> pooled) throws IOException {
            if (isBroken) {
                throw new IOException("destroy");
            }
        }
    }

    /** A pool that notes what it swallows. */
    private static final class Noting extends ZuphinkaPool<String> {
        final List<String> noted = Collections.synchronizedList(new ArrayList<>());

        Noting(Texts texts, Journal journal) {
            super(texts, config(), null, journal);
        }

        private static GenericObjectPoolConfig<String> config() {
            GenericObjectPoolConfig<String> config = new GenericObjectPoolConfig<>();
            config.setJmxEnabled(false);
            return config;
        }

        @Override
        protected void swallowed(Exception failure) {
            noted.add(failure.getClass().getSimpleName());
        }

        /** Lends and returns objects so many times. */
        Noting play(int pairs) throws Exception {
            for (int pair = 0; pair < pairs; pair++) {
                returnObject(borrowObject());
            }
            return this;
        }
    }

    private static Noting pool(Path folder) throws IOException {
        return new Noting(new Texts(), whenDue(folder));
    }

    private static List<String> files(Path folder) throws IOException {
        try (Stream<Path> files = Files.list(folder)) {
            return files.map(file -> file.getFileName().toString()).sorted().collect(Collectors.toList());
        }
    }

    private static void remove(Path folder) throws IOException {
        List<Path> files;
        try (Stream<Path> found = Files.walk(folder)) {
            files = found.sorted(Comparator.reverseOrder()).collect(Collectors.toList());
        }
        for (Path file : files) {
            Files.delete(file);
        }
    }

    /** Returns the number of entries in a file, or in all files of a folder. */
    private static long entries(Path path) throws IOException {
        long found = 0;
        for (String name : Files.isDirectory(path) ? files(path) : List.of("")) {
            found += entriesIn(Files.readString(path.resolve(name), StandardCharsets.US_ASCII));
        }
        return found;
    }

    private static long entriesIn(String text) {
        return text.lines().filter(line -> line.matches("\\d+ .* = .*")).count();
    }

    /** Each pool has a folder of its own, whatever its parent is. */
    private static void severalPools(Path parent) throws Exception {
        Journal journal = Journal.inFolder(parent);
        List<Noting> pools = List.of(new Noting(new Texts(), journal).play(1), new Noting(new Texts(), journal.limit(100)).play(2), pool(parent).play(3));
        for (Noting pool : pools) {
            pool.close();
            expect("the failures of a pool beside others", List.of(), pool.noted);
            expect("its entries", pool.getCounts().steps(), entries(pool.getJournalFolder()));
        }
        List<String> folders = pools.stream().map(pool -> pool.getJournalFolder().getFileName().toString()).sorted().collect(Collectors.toList());
        expect("a folder for each", folders, files(parent));
        String named = "\\d{8}T\\d{6}Z-" + ProcessHandle.current().pid() + "(-[23])?";
        expect("their names", List.of(true, true, true), folders.stream().map(name -> name.matches(named)).collect(Collectors.toList()));
    }

    /** The file of a start has its times and its process. */
    private static void start(Path parent) throws Exception {
        Instant before = Instant.now().truncatedTo(ChronoUnit.MILLIS);
        Noting pool = pool(parent).play(1);
        Instant after = Instant.now();
        List<String> lines = Files.readAllLines(pool.getJournalFolder().resolve("start.toml"));
        List<Instant> times = lines.subList(0, 2).stream().map(line -> Instant.parse(line.split("\"")[1])).collect(Collectors.toList());
        expect("the keys of a start", List.of("started = ", "zero = ", "process = " + ProcessHandle.current().pid()),
                lines.stream().map(line -> line.replaceAll("\".*", "")).collect(Collectors.toList()));
        expect("the time 0 is that of the pool", true, !times.get(1).isBefore(before) && !times.get(1).isAfter(times.get(0)));
        expect("it started then", true, !times.get(0).isAfter(after));
        String name = pool.getJournalFolder().getFileName().toString();
        expect("the name has the same time", times.get(0).toString().replaceAll("[-:]|[.]\\d+", ""), name.replaceAll("-.*", ""));
        pool.close();
    }

    /** A pool whose maintenance thread cannot be started. */
    private static final class Unmade extends ZuphinkaPool<String> {
        Unmade(Journal journal) {
            super(new Texts(), new GenericObjectPoolConfig<>(), null, journal);
        }

        @Override
        public Duration getDurationBetweenEvictionRuns() {
            throw new OutOfMemoryError("thread");
        }
    }

    /** A pool that cannot be made leaves its folder to another one, and no MBean. */
    private static void unmade(Path folder) throws Exception {
        MBeanServer server = ManagementFactory.getPlatformMBeanServer();
        ObjectName all = new ObjectName("org.apache.commons.pool2:*");
        Journal journal = Journal.inFolder(folder);
        expect("a pool that cannot be made", "OutOfMemoryError: thread", result(() -> new Unmade(journal)));
        expect("its MBean", Set.of(), server.queryNames(all, null));
        expect("its folder", List.of(), files(folder));
        expect("another pool with its journal", "done", ending(() -> new Noting(new Texts(), journal).play(1).close()));
    }

    private static String refusal(Journal journal) {
        try {
            new Noting(new Texts(), journal).close();
            return "none";
        } catch (IllegalArgumentException | OutOfMemoryError e) {
            return e.getMessage();
        }
    }

    /** A pool that there is no memory for leaves no folder, and one below a file is refused. */
    private static void refused(Path folder) throws Exception {
        Journal journal = Journal.inFolder(folder);
        Refusal.refuse(1);
        expect("a pool without memory", "zuphinka: no memory for a pool", refusal(journal));
        Refusal.refuse(0);
        expect("its folder", List.of(), files(folder));
        Path file = Files.createFile(folder.resolve("file"));
        expect("a folder that is a file", "FileAlreadyExistsException", kind(result(() -> Journal.inFolder(file))));
        expect("a folder below a file", "FileAlreadyExistsException", kind(result(() -> Journal.inFolder(file.resolve("below")))));
        Journal gone = Journal.inFolder(folder.resolve("gone"));
        Files.delete(folder.resolve("gone"));
        Files.createFile(folder.resolve("gone"));
        expect("a folder that is a file by then", "UncheckedIOException", kind(result(() -> new Noting(new Texts(), gone))));
        remove(folder);
    }

    private static Object kind(Object thrown) {
        return thrown.toString().replaceAll(":.*", "");
    }

    /** A folder that is removed is made again, with its settings. So are the settings alone. */
    private static void removed(Path parent) throws Exception {
        Noting pool = pool(parent);
        Path folder = pool.getJournalFolder();
        pool.play(1).flushJournal();
        remove(folder);
        pool.play(1).flushJournal();
        expect("a folder that was removed", List.of("segment-00000000000000000004", SETTINGS, "start.toml"), files(folder));
        Files.delete(folder.resolve(SETTINGS));
        pool.play(1).flushJournal();
        expect("a file that was removed", List.of("segment-00000000000000000004", "segment-00000000000000000008", SETTINGS, "start.toml"), files(folder));
        pool.close();
        expect("failures", List.of(), pool.noted);
        remove(folder); // its journal has no beginning
    }

    /** Settings that are removed after a change are put back as they were, and so are those of the change: the journal stays legal. */
    private static void removedAfterChange(Path parent) throws Exception {
        Noting pool = pool(parent).play(1);
        Path first = pool.getJournalFolder().resolve(SETTINGS);
        Path changed = first.resolveSibling("settings-00000000000000000004.toml");
        String before = pool.getSettingsText();
        pool.setMaxTotal(9);
        pool.play(1).flushJournal();
        for (List<Path> gone : List.of(List.of(first), List.of(changed), List.of(first, changed))) {
            for (Path file : gone) {
                Files.delete(file);
            }
            pool.play(1).flushJournal();
            expect("both settings", List.of(before, pool.getSettingsText()), List.of(Files.readString(first), Files.readString(changed)));
        }
        pool.close();
    }

    /** A file of entries that is removed, or is shorter than it was: the next one has the base that its entries continue. */
    private static void lostSegment(Path parent) throws Exception {
        Noting pool = pool(parent);
        Path folder = pool.getJournalFolder();
        pool.play(1).flushJournal();
        pool.play(1).flushJournal();
        expect("entries in one file", 8L, entries(folder.resolve(FIRST)));
        Files.write(folder.resolve(FIRST), new byte[0]);
        pool.play(1).flushJournal();
        expect("a file beside one that is shorter", 4L, entries(folder.resolve("segment-00000000000000000008")));
        Files.delete(folder.resolve("segment-00000000000000000008"));
        pool.play(1).flushJournal();
        expect("a file in place of one that is gone", 4L, entries(folder.resolve("segment-00000000000000000012")));
        pool.close();
        remove(parent); // its journal has no beginning
    }

    /** What is returned after the close is stored too, also if an object never comes back. */
    private static void returnedLate(Path folder) throws Exception {
        Texts texts = new Texts();
        Noting pool = new Noting(texts, whenDue(folder));
        List<String> lent = new ArrayList<>();
        while (lent.size() < 6) {
            lent.add(pool.borrowObject());
        }
        pool.close();
        pool.returnObject(lent.get(0));
        pool.returnObject(lent.get(1));
        pool.invalidateObject(lent.get(2));
        texts.isBroken = true;
        pool.returnObject(lent.get(3));
        try {
            pool.invalidateObject(lent.get(4));
        } catch (IOException e) {
            pool.noted.add("thrown");
        }
        expect("destructions that fail", List.of("IOException", "thrown"), pool.noted);
        expect("entries after the close, one is lent", pool.getCounts().steps(), entries(pool.getJournalFolder()));
        texts.isBroken = false;
        pool.returnObject(lent.get(5));
        expect("entries after the close", pool.getCounts().steps(), entries(pool.getJournalFolder()));
    }

    /** What a borrow adds is stored too if the pool is closed while its object is made, whether that fails or not. */
    private static void closedInMake(Path folder) throws Exception {
        Texts texts = new Texts();
        Noting pool = new Noting(texts, whenDue(folder.resolve("made")));
        texts.during = pool::close;
        String lent = pool.borrowObject();
        pool.returnObject(lent);
        expect("entries of a borrow during a close", pool.getCounts().steps(), entries(pool.getJournalFolder()));
        Noting other = new Noting(texts, whenDue(folder.resolve("failed")));
        texts.during = () -> {
            other.close();
            throw new IOException("make");
        };
        try {
            expect("a make that fails", "nothing", other.borrowObject());
        } catch (IOException e) {
            expect("a make that fails", "make", e.getMessage());
        }
        expect("entries of a make that fails during a close", other.getCounts().steps(), entries(other.getJournalFolder()));
    }

    /** A sink that returns an object of its pool after the close does not wait for itself. */
    private static void returnedInSink() throws Exception {
        List<String> lent = new ArrayList<>();
        List<Noting> pools = new ArrayList<>();
        Noting pool = new Noting(new Texts(), whenDue(segment -> {
            if (!lent.isEmpty()) {
                pools.get(0).returnObject(lent.remove(0));
            }
        }));
        pools.add(pool);
        lent.add(pool.borrowObject());
        expect("a return within a sink", "done", within(begun(() -> {
            pool.close();
            return "done";
        })));
        expect("its object", 1L, pool.getDestroyedCount());
    }

    /** The names of files have the digits of ASCII, whatever the locale. */
    private static void locale(Path folder) throws Exception {
        Locale before = Locale.getDefault();
        Path stored = null;
        Locale.setDefault(Locale.forLanguageTag("ar-EG-u-nu-arab"));
        try {
            expect("the locale has other digits", false, "0".equals(String.format("%d", 0)));
            Noting pool = pool(folder).play(1);
            stored = pool.getJournalFolder();
            pool.close();
        } finally {
            Locale.setDefault(before);
        }
        expect("a folder in another locale", true, stored.getFileName().toString().matches("[0-9TZ-]+"));
        expect("its files", FILES, files(stored));
    }

    /** A relative folder stays the same if the current folder changes. */
    private static void relative(Path folder) throws Exception {
        Path before = Path.of("").toAbsolutePath();
        Path there = Files.createDirectories(folder.resolve("there"));
        Noting pool = pool(before.relativize(folder.resolve("stored"))).play(1);
        expect("another current folder", true, Refusal.enter(there));
        pool.close();
        expect("the current folder again", true, Refusal.enter(before));
        expect("failures in another folder", List.of(), pool.noted);
        expect("the files of a relative folder", FILES, files(pool.getJournalFolder()));
        expect("it stays where it was", true, Files.isSameFile(folder.resolve("stored"), pool.getJournalFolder().getParent()));
    }

    /** Counts bytes. */
    private static final class Counter extends OutputStream {
        private long bytes;

        @Override
        public void write(int one) {
            bytes++;
        }

        @Override
        public void write(byte[] some, int from, int number) {
            bytes += number;
        }
    }

    /** A text of any length is written, also one that no array has. The native library returns it in parts of 512 bytes. */
    private static void texts() throws Exception {
        Noting pool = new Noting(new Texts(), Journal.kept()).play(30);
        Segment journal = pool.getJournal();
        ByteArrayOutputStream written = new ByteArrayOutputStream();
        journal.writeTo(written);
        expect("a text of several parts", true, Parts.number(journal) > 3);
        expect("its bytes", List.of((long) written.size(), true), List.of(journal.size(), Arrays.equals(written.toByteArray(), journal.text())));
        expect("its entries", journal.entries(), entriesIn(written.toString(StandardCharsets.US_ASCII)));
        Segment cut = pool.cut();
        expect("a cut", true, Arrays.equals(journal.text(), cut.text()));
        pool.close();
        Segment huge = Parts.repeated(new byte[1 << 20], 1 << 11);
        Counter counter = new Counter();
        huge.writeTo(counter);
        expect("the bytes of a huge text", 1L << 31, counter.bytes);
        try {
            expect("a huge text", "refused", huge.text().length);
        } catch (IllegalStateException e) {
            expect("a huge text", "segment: 2147483648 bytes are too many for an array, but not for writeTo", e.getMessage());
        }
    }

    /** A large segment is stored where there is little memory beside the heap. */
    private static void large(Path folder) throws Exception {
        byte[] text = new byte[(8 << 20) + 1];
        Path stored = Parts.store(folder, Parts.repeated(text, 2));
        expect("the bytes of a large segment", 2L * text.length, Files.size(stored.resolve(FIRST)));
        remove(folder);
    }

    public static void main(String[] words) throws Exception {
        Path folder = Path.of(words[0]);
        texts();
        large(folder.resolve("large"));
        severalPools(folder.resolve("several"));
        start(folder.resolve("start"));
        unmade(folder.resolve("unmade"));
        refused(folder.resolve("refused"));
        removed(folder.resolve("removed"));
        removedAfterChange(folder.resolve("changed"));
        lostSegment(folder.resolve("lost"));
        returnedLate(folder.resolve("late"));
        closedInMake(folder.resolve("closed"));
        returnedInSink();
        locale(folder.resolve("locale"));
        relative(folder.resolve("relative"));
        printCounts();
    }
}
