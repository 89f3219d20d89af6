/** One call of a factory by a pool, and how it ended. */
final class Callback {
    enum Method {
        MAKE,
        ACTIVATE,
        VALIDATE,
        PASSIVATE,
        DESTROY,
        DESTROY_ABANDONED
    }

    enum End {
        GOOD,
        INVALID,
        NULL,
        THROWS
    }

    final Method method;
    /** The number of the object, by the order in which objects are made. */
    final int number;
    final End end;

    Callback(Method method, int number, End end) {
        this.method = method;
        this.number = number;
        this.end = end;
    }

    boolean is(Method wanted) {
        return method == wanted;
    }

    boolean isGood(Method wanted) {
        return method == wanted && end == End.GOOD;
    }

    boolean isBad(Method wanted) {
        return method == wanted && end != End.GOOD;
    }

    boolean hasThrown(Method wanted) {
        return method == wanted && end == End.THROWS;
    }

    @Override
    public boolean equals(Object other) {
        return other instanceof Callback && toString().equals(other.toString());
    }

    @Override
    public int hashCode() {
        return toString().hashCode();
    }

    @Override
    public String toString() {
        String text = (method + " " + number).toLowerCase();
        return end == End.GOOD ? text : text + " " + end.toString().toLowerCase();
    }
}
