package io.github.zuphinka;

import java.io.IOException;
import java.nio.file.Path;
import java.time.Instant;
import java.util.Collections;
import java.util.List;

/** What only the pool makes: segments of parts, and their files. */
public final class Parts {
    private Parts() {}

    /** Returns the number of parts of a segment. */
    public static int number(Segment segment) {
        return segment.parts().size();
    }

    /** Returns a segment that has a text so many times. */
    public static Segment repeated(byte[] text, int times) {
        return new Segment(0, 0, List.of(), Collections.nCopies(times, text), "", 0);
    }

    /** Stores a segment in a new folder below another one, which is returned. */
    public static Path store(Path parent, Segment segment) throws IOException {
        SegmentFolder stored = new SegmentFolder(parent, Instant.EPOCH, 1, new CallerNames());
        stored.store(segment);
        return stored.folder;
    }
}
