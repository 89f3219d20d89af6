/** An object of a pool. All are equal, as the objects of a pool may be. */
final class Item {
    /** The number of one that is of no pool. */
    static final int FOREIGN = -1;
    /** Stands for null. */
    static final int NONE = -2;

    final int number;

    Item(int number) {
        this.number = number;
    }

    @Override
    public boolean equals(Object other) {
        return other instanceof Item;
    }

    @Override
    public int hashCode() {
        return 1;
    }

    @Override
    public String toString() {
        return "" + number;
    }
}
