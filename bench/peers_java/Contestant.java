/** A pool whose threads borrow and return. Each kind has a loop of its own, so that a virtual machine with both compiles each for its pool. */
interface Contestant extends AutoCloseable {
    /** Borrows an object and returns it, over and over. */
    void work(long rounds) throws Exception;

    /** Returns the pairs of a borrow and a return that the pool or its objects have counted. */
    long pairs();

    /** Returns how many objects it has created, or was given. */
    long created();

    @Override
    void close();
}
