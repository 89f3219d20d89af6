package io.github.zuphinka;

import java.io.IOException;
import java.nio.channels.ClosedByInterruptException;
import java.nio.channels.FileChannel;
import java.nio.charset.StandardCharsets;
import java.nio.file.FileAlreadyExistsException;
import java.nio.file.Files;
import java.nio.file.Path;
import java.nio.file.StandardCopyOption;
import java.nio.file.StandardOpenOption;
import java.time.Instant;
import java.time.ZoneOffset;
import java.time.format.DateTimeFormatter;
import java.util.List;
import java.util.Locale;

/**
 * Stores the segments of one pool in a folder that is made for it, below the one that the user names. It has the time and the process of its start as
 * its name and in {@code start.toml}; the settings in {@code settings.toml}; the entries in files {@code segment-POSITION}, whose position has 20
 * digits; and the names of callers in {@code callers.txt}. Other settings are in {@code settings-POSITION.toml}, with the position of the first segment
 * that has them, and are stored before that.
 *
 * <p>The entries of a segment are appended to the file of those before it, which has their base, and are synced. A new file begins with other
 * settings, once a file is long, and before it has more entries than the limit of the journal allows, by which a check judges each file. It is written
 * under another name, synced and renamed, and the folder is synced. So is the folder above each new folder. After a crash the last line of the last
 * file may be incomplete, and a file {@code .unfinished} may be left, which nobody reads.
 */
final class SegmentFolder implements SegmentSink {
    private static final String START = "start.toml";
    private static final String SETTINGS = "settings.toml";
    /** From how many bytes on a file gets no more entries. */
    private static final long LONG_FILE = 16 << 20;
    /** How many entries an entry may take of the room of a journal, with those that are outstanding after it: as that of a borrow that makes an object. */
    private static final long MOST_ROOM = 6;
    private static final DateTimeFormatter NAME = DateTimeFormatter.ofPattern("yyyyMMdd'T'HHmmss'Z'", Locale.ROOT).withZone(ZoneOffset.UTC);
    private static final DateTimeFormatter TIME =
            DateTimeFormatter.ofPattern("yyyy-MM-dd'T'HH:mm:ss.SSS'Z'", Locale.ROOT).withZone(ZoneOffset.UTC);

    /** From the root, so that it stays the same folder. */
    final Path folder;
    private final String start;
    private final long limit;
    private final CallerNames names;
    private GrowingFile callers;
    /** The lines for the callers' file that it does not have yet. */
    private String unnamed = "";
    /** The settings of the first segment, and those of the last one; null before. */
    private String first;
    private String settings;
    /** The file of the last settings. */
    private String changed = SETTINGS;
    /** The file of the last segment, and how many entries it has; null if the next segment begins one. */
    private GrowingFile running;
    private long entries;

    /** What is done with files. */
    private interface Act {
        void run() throws IOException;
    }

    /**
     * Makes the folder of a start, below another one.
     *
     * @param zero when the time of the journal's entries is 0
     * @param limit how many entries a check allows in a file, with those that are outstanding
     * @throws IOException if it cannot be made
     */
    SegmentFolder(Path parent, Instant zero, long limit, CallerNames names) throws IOException {
        Instant started = Instant.now();
        long process = ProcessHandle.current().pid();
        this.limit = limit;
        this.names = names;
        start = "started = \"" + TIME.format(started) + "\"\nzero = \"" + TIME.format(zero) + "\"\nprocess = " + process + "\n";
        Path above = parent.toAbsolutePath();
        create(above);
        folder = made(above, NAME.format(started) + "-" + process);
        callers = new GrowingFile(folder.resolve("callers.txt"), 0);
        uninterrupted(() -> {
            sync(above);
            storeAs(START, partsOf(start));
        });
    }

    /** Makes a folder with a name, or with the first free number after it. */
    private static Path made(Path above, String name) throws IOException {
        for (int number = 1;; number++) {
            try {
                return Files.createDirectory(above.resolve(number == 1 ? name : name + "-" + number));
            } catch (FileAlreadyExistsException e) {
                // The next number is tried.
            }
        }
    }

    /** Makes a folder and those above it, as far as they are not there. */
    static void create(Path folder) throws IOException {
        if (Files.isDirectory(folder)) {
            return;
        }
        create(folder.getParent());
        Files.createDirectories(folder);
        uninterrupted(() -> sync(folder.getParent()));
    }

    /** Removes the folder of a pool that could not be made. */
    void remove() {
        try {
            Files.deleteIfExists(folder.resolve(START));
            Files.deleteIfExists(folder);
        } catch (IOException e) {
            // What is left says when the pool was to start.
        }
    }

    @Override
    public void store(Segment segment) throws IOException {
        uninterrupted(() -> storeOnce(segment));
    }

    /** Acts again if an interrupt ended that: the thread is interrupted for another cause, and stays so. */
    private static void uninterrupted(Act act) throws IOException {
        boolean isInterrupted = false;
        try {
            for (;;) {
                isInterrupted |= Thread.interrupted();
                try {
                    act.run();
                    return;
                } catch (ClosedByInterruptException e) {
                    // Another try.
                }
            }
        } finally {
            if (isInterrupted) {
                Thread.currentThread().interrupt();
            }
        }
    }

    private void storeOnce(Segment segment) throws IOException {
        if (!isAppended(segment)) {
            begin(segment);
        }
        storeNames();
    }

    /** Appends the entries of a segment to the last file, and returns whether it may have them, and is there. */
    private boolean isAppended(Segment segment) throws IOException {
        boolean mayHave = running != null && running.size() < LONG_FILE && segment.settings().equals(settings)
                && entries + segment.outstanding + MOST_ROOM * segment.entries() <= limit;
        if (!mayHave || isGone(SETTINGS) || isGone(changed) || !running.hasAppended(segment.lines)) {
            return false;
        }
        entries += segment.entries();
        return true;
    }

    /** Begins a file with a segment. What was removed of those before it is made again. */
    private void begin(Segment segment) throws IOException {
        running = null;
        create(folder);
        first = first == null ? segment.settings() : first;
        boolean isOther = settings != null && !segment.settings().equals(settings);
        changed = isOther ? named("settings-%020d.toml", segment) : changed;
        settings = segment.settings();
        restore(START, start);
        restore(SETTINGS, first);
        restore(changed, settings);
        String name = named("segment-%020d", segment);
        storeAs(name, segment.parts());
        running = new GrowingFile(folder.resolve(name), segment.size());
        entries = segment.entries();
    }

    private boolean isGone(String name) {
        return Files.notExists(folder.resolve(name));
    }

    /** Stores a file if it is not there. */
    private void restore(String name, String text) throws IOException {
        if (isGone(name)) {
            storeAs(name, partsOf(text));
        }
    }

    /** Stores the names of callers that are not stored yet. */
    private void storeNames() throws IOException {
        unnamed += names.take();
        if (unnamed.isEmpty()) {
            return;
        }
        List<byte[]> lines = partsOf(unnamed);
        if (!callers.hasAppended(lines)) {
            storeAs("callers.txt", lines);
            callers = new GrowingFile(folder.resolve("callers.txt"), lines.get(0).length);
        }
        unnamed = "";
    }

    /** Returns a name with the position of a segment. */
    private static String named(String format, Segment segment) {
        return String.format(Locale.ROOT, format, segment.position());
    }

    private static List<byte[]> partsOf(String text) {
        return List.of(text.getBytes(StandardCharsets.UTF_8));
    }

    /** Stores a file under a name. Before that it has another one. */
    private void storeAs(String name, List<byte[]> text) throws IOException {
        Path unfinished = folder.resolve(".unfinished");
        try (FileChannel file = FileChannel.open(unfinished, StandardOpenOption.CREATE, StandardOpenOption.TRUNCATE_EXISTING,
                StandardOpenOption.WRITE)) {
            GrowingFile.write(file, text);
            file.force(true);
        }
        Files.move(unfinished, folder.resolve(name), StandardCopyOption.ATOMIC_MOVE);
        sync(folder);
    }

    private static void sync(Path folder) throws IOException {
        try (FileChannel opened = FileChannel.open(folder, StandardOpenOption.READ)) {
            opened.force(true);
        }
    }
}
