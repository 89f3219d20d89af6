import com.zaxxer.hikari.util.ConcurrentBag;
import java.util.concurrent.TimeUnit;
import java.util.concurrent.atomic.AtomicInteger;

/**
 * A ConcurrentBag of HikariCP, which has all its objects from the start. It counts nothing: its objects count their loans. It has no factory, and so
 * no hooks.
 */
final class Hikari implements Contestant {
    private static final long LONGEST_WAIT_SECONDS = 60;

    /** An object of the bag. Its state belongs to the bag. */
    static final class Entry implements ConcurrentBag.IConcurrentBagEntry {
        private final AtomicInteger state = new AtomicInteger(STATE_NOT_IN_USE);
        /** How often it was borrowed. Only its holder changes it: if an object had two holders, loans would be missing. */
        volatile long loans;

        @Override
        public boolean compareAndSet(int expected, int next) {
            return state.compareAndSet(expected, next);
        }

        @Override
        public void setState(int next) {
            state.set(next);
        }

        @Override
        public int getState() {
            return state.get();
        }
    }

    /** The bag asks its listener for one more object when a thread has to wait. It is full then. */
    private final ConcurrentBag<Entry> bag = new ConcurrentBag<>(waiting -> { });

    Hikari(int objects, boolean isHooked) {
        if (isHooked) {
            throw new IllegalArgumentException("a ConcurrentBag has no hooks");
        }
        for (int place = 0; place < objects; place++) {
            bag.add(new Entry());
        }
    }

    @Override
    public void work(long rounds) throws Exception {
        for (long round = 0; round < rounds; round++) {
            Entry entry = bag.borrow(LONGEST_WAIT_SECONDS, TimeUnit.SECONDS);
            if (entry == null) {
                throw new IllegalStateException("no object within " + LONGEST_WAIT_SECONDS + " seconds");
            }
            entry.loans = entry.loans + 1;
            bag.requite(entry);
        }
    }

    /** Returns the loans that the objects have counted, without those that are not over. */
    @Override
    public long pairs() {
        long loans = bag.values().stream().mapToLong(entry -> entry.loans).sum();
        return loans - bag.getCount(Entry.STATE_IN_USE);
    }

    /** Returns how many objects are in the bag. */
    @Override
    public long created() {
        return bag.size();
    }

    @Override
    public void close() {
        bag.close();
    }
}
