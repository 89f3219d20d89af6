import java.time.Duration;
import java.util.Arrays;

/** One call of a pool. */
final class Call {
    /** What is called. An "other" object is one that its caller does not hold: an idle one, a destroyed one, or one of no pool. */
    enum Kind {
        BORROW("borrowObject()"),
        BORROW_WITHIN("borrowObject(limit)"),
        RETURN("returnObject(%d)"),
        RETURN_OTHER("returnObject(%d)"),
        INVALIDATE("invalidateObject(%d)"),
        INVALIDATE_OTHER("invalidateObject(%d)"),
        USE("use(%d)"),
        USE_OTHER("use(%d)"),
        ADD("addObject()"),
        ADD_TWO("addObjects(2)"),
        PREPARE("preparePool()"),
        EVICT("evict()"),
        CLEAR("clear()"),
        CLOSE("close()"),
        HOUR("an hour passes"),
        /** Sets one property of a {@code GenericObjectPoolConfig}, all of them, those of an {@code AbandonedConfig}, or another one. */
        SET(""),
        SET_ALL(""),
        SET_ABANDONED(""),
        SET_OTHER("");

        private final String text;

        Kind(String text) {
            this.text = text;
        }
    }

    /** One call in so many is made by an interrupted thread. */
    private static final int INTERRUPTED = 32;

    final Kind kind;
    /** Chooses an object, and what the factory does in the call. */
    final int chance;

    Call(Kind kind, int chance) {
        this.kind = kind;
        this.chance = chance;
    }

    boolean isOf(Kind... kinds) {
        return Arrays.asList(kinds).contains(kind);
    }

    boolean isBorrow() {
        return isOf(Kind.BORROW, Kind.BORROW_WITHIN);
    }

    boolean isForHeld() {
        return isOf(Kind.RETURN, Kind.INVALIDATE, Kind.USE);
    }

    boolean isForOther() {
        return isOf(Kind.RETURN_OTHER, Kind.INVALIDATE_OTHER, Kind.USE_OTHER);
    }

    boolean isChange() {
        return isOf(Kind.SET, Kind.SET_ALL, Kind.SET_ABANDONED, Kind.SET_OTHER);
    }

    /** Returns whether its thread was interrupted before. */
    boolean isInterrupted() {
        return chance % INTERRUPTED == 0;
    }

    /** Returns how long a borrow with a limit of its own waits at most: negative, which is without a limit, only if it does not wait. */
    Duration limit(boolean isBlocking) {
        switch (chance % 4) {
            case 0:
                return Duration.ZERO;
            case 1:
                return Duration.ofNanos(1);
            case 2:
                return Duration.ofMillis(isBlocking ? 2 : -1);
            default:
                return Duration.ofMillis(1);
        }
    }

    /** Returns the call as a text, with the number of its object. */
    String text(int number) {
        String text = isChange() ? "" + Change.of(this) : String.format(kind.text, number);
        return isInterrupted() ? text + " while interrupted" : text;
    }
}
