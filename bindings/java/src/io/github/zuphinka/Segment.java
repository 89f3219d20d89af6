package io.github.zuphinka;

import java.io.IOException;
import java.io.OutputStream;
import java.nio.ByteBuffer;
import java.util.ArrayList;
import java.util.List;

/**
 * A part of a pool's journal that is complete. {@code pool check SETTINGS SEGMENT..} checks all segments of a pool in their order. Any number of
 * threads may read it.
 */
public final class Segment {
    private final long position;
    private final long entries;
    /** The lines of its base, and those of its entries, in order. No part is empty. */
    final List<byte[]> base;
    final List<byte[]> lines;
    private final String settings;
    /** How many entries were outstanding before its first one. */
    final long outstanding;
    /** How many bytes its text has. */
    final long size;
    /** The next one of {@link Segments}. */
    Segment next;

    Segment(long position, long entries, List<byte[]> base, List<byte[]> lines, String settings, long outstanding) {
        this.position = position;
        this.entries = entries;
        this.base = base;
        this.lines = lines;
        this.settings = settings;
        this.outstanding = outstanding;
        size = parts().stream().mapToLong(part -> part.length).sum();
    }

    /** Returns its text, in order. */
    List<byte[]> parts() {
        List<byte[]> parts = new ArrayList<>(base);
        parts.addAll(lines);
        return parts;
    }

    /**
     * Returns the position of its first entry: the number of entries before it since the pool was made.
     *
     * @return a number from 0
     */
    public long position() {
        return position;
    }

    /**
     * Returns the number of its entries.
     *
     * @return a number from 0
     */
    public long entries() {
        return entries;
    }

    /**
     * Returns the number of bytes of its text.
     *
     * @return a number from 0
     */
    public long size() {
        return size;
    }

    /**
     * Returns its lines in ASCII: those of the base that its entries continue, and those of the entries. Each line ends in a line feed.
     *
     * @return a new array
     * @throws IllegalStateException if the text has 2 GiB or more, which no array has; {@link #writeTo} writes it
     */
    public byte[] text() {
        if (size > Integer.MAX_VALUE) {
            throw new IllegalStateException("segment: " + size + " bytes are too many for an array, but not for writeTo");
        }
        ByteBuffer text = ByteBuffer.allocate((int) size);
        parts().forEach(text::put);
        return text.array();
    }

    /**
     * Writes its text, of any length.
     *
     * @param to gets the bytes of {@link #text}; not null. It is not closed
     * @throws IOException if the stream fails
     */
    public void writeTo(OutputStream to) throws IOException {
        for (byte[] part : parts()) {
            to.write(part);
        }
    }

    /**
     * Returns the settings that the pool had for all entries of the segment, as a file in TOML. The next segment may have others.
     *
     * @return the text that {@link ZuphinkaPool#getSettingsText} returned then
     */
    public String settings() {
        return settings;
    }
}
