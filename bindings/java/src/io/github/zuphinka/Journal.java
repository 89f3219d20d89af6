package io.github.zuphinka;

import java.io.IOException;
import java.nio.file.Path;
import java.time.Duration;
import java.time.Instant;
import java.util.Objects;

/**
 * What becomes of a pool's journal, which has one line for each step of the pool. It is passed to the constructor of a {@link ZuphinkaPool}, and
 * never changes. Any number of pools may have one, except that of a sink that does not tell pools apart.
 */
public final class Journal {
    /** The number of entries that a kept or stored journal has in memory at most, unless {@link #limit} names another: 1,000,000. */
    public static final long DEFAULT_LIMIT = 1_000_000;
    /** Within which time the entries of a stored journal are stored, unless {@link #storeEvery} names another: a second. */
    public static final Duration DEFAULT_STORE_EVERY = Duration.ofSeconds(1);

    /** Where it is stored; both are null if it is not. */
    private final SegmentSink sink;
    private final Path folder;
    final boolean isDropped;
    final long limit;
    /** Within which time entries are stored; 0 or negative: in no time. */
    final Duration flush;

    private Journal(SegmentSink sink, Path folder, boolean isDropped, long limit, Duration flush) {
        this.sink = sink;
        this.folder = folder;
        this.isDropped = isDropped;
        this.limit = limit;
        this.flush = flush;
    }

    /**
     * Returns a journal whose entries are dropped each time that there are 5,000, or eight for each object if that is more; with a {@link #limit}, at
     * half of it at the latest. The pool never stops lending because its journal is full, and its memory stays small.
     *
     * @return a journal that is in memory for a short time
     */
    public static Journal dropped() {
        return new Journal(null, null, true, CoreSettings.MOST_ENTRIES, Duration.ZERO);
    }

    /**
     * Returns a journal that is kept in memory. Once it has no room, the pool lends nothing until {@link ZuphinkaPool#cut} is called.
     *
     * @return a journal in memory
     */
    public static Journal kept() {
        return new Journal(null, null, false, DEFAULT_LIMIT, Duration.ZERO);
    }

    /**
     * Returns a journal that is stored in segments: within a second after the entries were made ({@link #storeEvery}), at a close, and when the virtual
     * machine exits; also when half of the room in memory is used up.
     *
     * @param sink gets the segments; not null
     * @return a journal that is stored
     */
    public static Journal storedBy(SegmentSink sink) {
        return new Journal(Objects.requireNonNull(sink), null, false, DEFAULT_LIMIT, DEFAULT_STORE_EVERY);
    }

    /**
     * Returns a journal that is stored in files. Each pool makes a folder of its own below the given one, whose name is the time of the pool's start and
     * the process, as {@code 20261130T035457Z-4711}; {@link ZuphinkaPool#getJournalFolder} returns it. The program {@code judge} checks it. The folder
     * has
     * <ul>
     * <li>{@code start.toml}: the time of day of the start, and that of the time 0 of the entries;
     * <li>{@code settings.toml}, and the settings that a change of the pool made in {@code settings-POSITION.toml}, from the segment of that position on;
     * <li>the entries in files {@code segment-POSITION} of some 16 MiB;
     * <li>{@code callers.txt}: the names of the threads that have numbers in the entries.
     * </ul>
     *
     * <p>The entries are stored within a second after they were made ({@link #storeEvery}), at a close, and when the virtual machine exits; by a daemon
     * thread of the pool, and without its lock. So a process that is killed loses those of the last second, and the last line may be incomplete. So does
     * a pool that is no longer used and was not closed. If the folder is removed, it is made again.
     *
     * @param folder a relative one stays the folder that it is now. It is made if it is not there. Not null
     * @return a journal that is stored
     * @throws IOException if the folder is a file, or cannot be made
     */
    public static Journal inFolder(Path folder) throws IOException {
        Path absolute = folder.toAbsolutePath();
        SegmentFolder.create(absolute);
        return new Journal(null, absolute, false, DEFAULT_LIMIT, DEFAULT_STORE_EVERY);
    }

    /**
     * Returns the same journal with another limit.
     *
     * @param entries the number of entries that it has in memory at most, from 1 to 2<sup>32</sup>; the constructor of the pool checks that
     * @return a new journal; this one is unchanged
     */
    public Journal limit(long entries) {
        return new Journal(sink, folder, isDropped, entries, flush);
    }

    /**
     * Returns the same journal with another time within which its entries are stored, by a daemon thread of the pool. A folder has them in one file with
     * those before. A sink gets a segment each time, with a base, which has a line for each object.
     *
     * @param time the time; 0 or negative: by no thread, and so as late as the journal's room allows, and not when the virtual machine exits. It does not
     *     matter if the journal is dropped or kept
     * @return a new journal; this one is unchanged
     */
    public Journal storeEvery(Duration time) {
        return new Journal(sink, folder, isDropped, limit, Objects.requireNonNull(time));
    }

    boolean isStored() {
        return sink != null || folder != null;
    }

    /** Returns whether its entries are stored from time to time. */
    boolean isFlushed() {
        return isStored() && !flush.isNegative() && !flush.isZero();
    }

    /** Returns the names that it is to have of the callers; null if it has none. */
    CallerNames names() {
        return folder == null ? null : new CallerNames();
    }

    /**
     * Returns what stores it for a pool whose time is 0 at some time of day; null if it is not stored.
     *
     * @throws IOException if the pool's folder cannot be made
     */
    SegmentSink open(Instant zero, CallerNames names) throws IOException {
        return folder == null ? sink : new SegmentFolder(folder, zero, limit, names);
    }
}
