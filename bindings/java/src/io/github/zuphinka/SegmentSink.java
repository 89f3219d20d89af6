package io.github.zuphinka;

import java.io.IOException;

/** Stores the segments of a pool's journal. */
@FunctionalInterface
public interface SegmentSink {
    /**
     * Stores a segment. Segments come one at a time and in their order: most from a thread of the pool ({@link Journal#storeEvery}), others from a thread
     * whose call found the journal's room low or changed the settings; a borrow that lends an object leaves this to the next call. That call returns once
     * this does. Other calls continue meanwhile, and segments wait for this call to return, until they have 16 MiB of text and the
     * journal has no room. Then a borrow waits for this as long as for an object, and another call as long as it takes. A return of a lent object never
     * waits, and a change of the settings holds before it does. This should not call the pool, which does not wait for it in the same thread.
     *
     * <p>If it throws anything, the segment counts as not stored. The same segment comes again, before any later one; so a segment may come twice if
     * it was stored in spite of the failure. It comes again when the thread of the pool stores next, once half of the room that was left is used up, with
     * {@link ZuphinkaPool#maintain} and {@link ZuphinkaPool#flushJournal}, and with each borrow once there is no room. Until it is stored no other segment
     * is cut, and without room nothing is lent.
     *
     * @param segment the next segment
     * @throws IOException if the segment is not stored
     */
    void store(Segment segment) throws IOException;
}
