package io.github.zuphinka;

/**
 * The counts of a pool at one moment. Each object that was created is idle, lent or reserved, or was destroyed or reclaimed. All counts are from 0.
 */
public final class Counts {
    /** How many numbers {@link Core#counts} stores. */
    static final int NUMBERS = 10;

    private final long[] numbers;

    Counts(long[] numbers) {
        this.numbers = numbers;
    }

    /**
     * Returns the number of steps, which are the entries of the journal since the pool was made, cut ones included.
     *
     * @return a number of steps
     */
    public long steps() {
        return numbers[0];
    }

    /**
     * Returns the number of idle objects, including those under an idle test.
     *
     * @return a number of objects
     */
    public long idle() {
        return numbers[1];
    }

    /**
     * Returns the number of lent objects.
     *
     * @return a number of objects
     */
    public long lent() {
        return numbers[2];
    }

    /**
     * Returns the number of objects that are being made, activated, tested, passivated or destroyed, and are not idle.
     *
     * @return a number of objects
     */
    public long reserved() {
        return numbers[3];
    }

    /**
     * Returns the number of objects that the pool asked its factory to make.
     *
     * @return a number of objects
     */
    public long created() {
        return numbers[4];
    }

    /**
     * Returns the number of objects that were destroyed, or could not be made.
     *
     * @return a number of objects
     */
    public long destroyed() {
        return numbers[5];
    }

    /**
     * Returns the number of idle objects that an eviction run destroyed. They count as destroyed too.
     *
     * @return a number of objects
     */
    public long evicted() {
        return numbers[6];
    }

    /**
     * Returns the number of abandoned objects that were taken from their holders.
     *
     * @return a number of objects
     */
    public long reclaimed() {
        return numbers[7];
    }

    /**
     * Returns the number of entries that the journal stores, since it was last cut.
     *
     * @return a number of entries
     */
    public long entries() {
        return numbers[8];
    }

    /**
     * Returns the number of entries for which the journal has room, besides those set aside to complete work begun on objects.
     *
     * @return a number of entries
     */
    public long room() {
        return numbers[9];
    }

    /**
     * Returns all counts with their names.
     *
     * @return a text in one line
     */
    @Override
    public String toString() {
        return "Counts[steps " + steps() + ", idle " + idle() + ", lent " + lent() + ", reserved " + reserved() + ", created " + created()
                + ", destroyed " + destroyed() + ", evicted " + evicted() + ", reclaimed " + reclaimed() + ", entries " + entries() + ", room " + room()
                + "]";
    }
}
