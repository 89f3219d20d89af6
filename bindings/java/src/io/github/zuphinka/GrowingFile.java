package io.github.zuphinka;

import java.io.IOException;
import java.nio.ByteBuffer;
import java.nio.channels.FileChannel;
import java.nio.file.NoSuchFileException;
import java.nio.file.Path;
import java.nio.file.StandardOpenOption;
import java.util.List;

/** A file to which one pool appends. It is not kept open. */
final class GrowingFile {
    /** The most bytes of a write. Each thread keeps a copy of that size for its next write. */
    private static final int LONGEST_WRITE = 1 << 18;
    private final Path path;
    /** How many bytes it has. After an append that failed it may have more, which the next one overwrites. */
    private long size;

    GrowingFile(Path path, long size) {
        this.path = path;
        this.size = size;
    }

    long size() {
        return size;
    }

    /** Appends a text and syncs it. Returns false, with the file unchanged, if it is gone, or shorter than what was appended. */
    boolean hasAppended(List<byte[]> text) throws IOException {
        try (FileChannel file = FileChannel.open(path, StandardOpenOption.WRITE)) {
            if (file.size() < size) {
                return false;
            }
            append(file, text);
            return true;
        } catch (NoSuchFileException e) {
            return false;
        }
    }

    private void append(FileChannel file, List<byte[]> text) throws IOException {
        long appended;
        try {
            file.position(size);
            appended = write(file, text);
            file.force(true);
        } catch (IOException | RuntimeException | Error e) {
            truncate(file);
            throw e;
        }
        size += appended;
    }

    /** Leaves no part of a line, if it can. */
    private void truncate(FileChannel file) {
        try {
            file.truncate(size);
        } catch (IOException e) {
            // The next append overwrites it.
        }
    }

    /** Writes a text at the position of a file, and returns its bytes. */
    static long write(FileChannel file, List<byte[]> text) throws IOException {
        long bytes = 0;
        for (byte[] part : text) {
            for (int written = 0; written < part.length;) {
                written += file.write(ByteBuffer.wrap(part, written, Math.min(LONGEST_WRITE, part.length - written)));
            }
            bytes += part.length;
        }
        return bytes;
    }
}
