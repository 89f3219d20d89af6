package io.github.zuphinka;

import java.util.BitSet;

/** The names of the threads that take steps of a pool, as lines {@code NUMBER NAME}: each once, until a file has it. */
final class CallerNames {
    /** The numbers of those that were seen. The lock of the pool protects it. */
    private final BitSet seen = new BitSet();
    private StringBuilder lines = new StringBuilder();

    /** Sees this thread, which has this number in the journal. Without memory its name is left out. The caller holds the lock of the pool. */
    void see(int number) {
        if (number < 0 || seen.get(number)) {
            return;
        }
        try {
            seen.set(number);
            add(number, Thread.currentThread().getName());
        } catch (OutOfMemoryError e) {
            // The call goes on.
        }
    }

    private synchronized void add(int number, String name) {
        if (!name.isEmpty()) {
            lines.append(number + " " + name.replaceAll("\\p{Cntrl}|[\\x80-\\x9f\\u2028\\u2029]", "?") + "\n");
        }
    }

    /** Returns the lines that were not returned before. The caller needs no lock. */
    synchronized String take() {
        String taken = lines.toString();
        lines = new StringBuilder();
        return taken;
    }
}
