package io.github.zuphinka;

import java.nio.ByteBuffer;
import java.nio.ByteOrder;

/** How many objects a journal has room for, by a core that lends one. */
final class JournalRoom {
    private JournalRoom() {}

    /** Opens a core by settings, and by flags and a number of {@link Core#open}, and returns its handle. */
    static long open(CoreSettings<?> settings, int flags, long stack) {
        long opened = Core.open(settings.bytes(), flags, stack);
        if (opened == Core.STATUS_OUT_OF_MEMORY) {
            throw new OutOfMemoryError("zuphinka: no memory for a pool");
        }
        if (opened <= 0) {
            throw settings.rejected(opened);
        }
        return opened;
    }

    /**
     * Looks whether all objects can be lent at a time before the journal is full, or one if there may be any number.
     *
     * @throws IllegalArgumentException if they cannot
     */
    static void require(CoreSettings<?> settings, Journal journal) {
        long wanted = settings.maxTotal < 0 ? 1 : settings.maxTotal;
        boolean isLimited = journal.limit < CoreSettings.MOST_ENTRIES && wanted > 0;
        if (isLimited && mostLent(settings, journal.isStored() || journal.isDropped) < wanted) {
            String total = " is reached before all objects are lent (maxTotal " + settings.maxTotal + ")";
            throw new IllegalArgumentException("journal limit: " + journal.limit + total);
        }
    }

    /** Returns how many objects of any number can be lent. The entries of each loan may be cut off before the next. */
    private static long mostLent(CoreSettings<?> settings, boolean isCut) {
        long core = open(settings, 0, 0);
        try {
            long room = roomOf(core);
            if (!lendsOne(core)) {
                return 0;
            }
            long used = room - roomOf(core);
            if (isCut) {
                hasDone(Core.cut(core));
            }
            long stillUsed = room - roomOf(core);
            return 1 + (room - used) / stillUsed;
        } finally {
            Core.drop(core);
        }
    }

    /** Returns the details of the last reply of a core. */
    static ByteBuffer detailsOf(long core) {
        ByteBuffer details = Core.details(core);
        if (details == null) {
            throw new OutOfMemoryError("zuphinka: no memory for a pool");
        }
        return details.order(ByteOrder.nativeOrder());
    }

    /** Lends an object as a borrow does that makes one, and returns whether there was room. */
    private static boolean lendsOne(long core) {
        long begun = Core.begin(core, 0, 0, 0, 0, Core.KIND_BORROW, 0, true);
        boolean makes = hasDone(begun) && Core.action(begun) == Core.ACTION_MAKE;
        return makes && hasDone(Core.advance(core, detailsOf(core).getLong(Core.PROGRESS), 0, 0, 0, Core.REPORT_MADE, true));
    }

    /** Returns whether a reply is none of a lack of memory. */
    private static boolean hasDone(long reply) {
        boolean lacks = reply == Core.STATUS_OUT_OF_MEMORY || (reply > 0 && Core.end(reply) == Core.END_OUT_OF_MEMORY);
        if (lacks) {
            throw new OutOfMemoryError("zuphinka: no memory for a pool");
        }
        return reply >= 0;
    }

    private static long roomOf(long core) {
        long[] numbers = new long[Counts.NUMBERS];
        Core.counts(core, numbers);
        return new Counts(numbers).room();
    }
}
