package io.github.zuphinka;

/** Segments in the order in which they were cut. To add one takes no memory. */
final class Segments {
    private Segment first;
    private Segment last;
    private long bytes;

    synchronized void add(Segment segment) {
        bytes += segment.size;
        if (first == null) {
            first = segment;
        } else {
            last.next = segment;
        }
        last = segment;
    }

    /** Returns the first one; null if there is none. */
    synchronized Segment first() {
        return first;
    }

    /** Returns how many bytes their texts have. */
    synchronized long bytes() {
        return bytes;
    }

    /** Removes the first one, and returns it; null if there is none. */
    synchronized Segment removeFirst() {
        Segment removed = first;
        if (removed != null) {
            first = removed.next;
            removed.next = null;
            bytes -= removed.size;
        }
        return removed;
    }
}
