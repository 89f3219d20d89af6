/** One call of a run, as it was made of Commons Pool and of {@code ZuphinkaPool}. */
final class Step {
    final Settings settings;
    final Call call;
    /** The object that the call is about. */
    final int number;
    final Outcome got;
    final Side library;
    final Side ours;
    /** Whether the pools have different objects from now on. */
    private boolean isLast;
    /** What is expected of {@code ZuphinkaPool}: what came of the call of Commons Pool, as the rules change it. */
    private Outcome expected;

    Step(Settings settings, Call call, int number, Side library, Side ours) {
        this.settings = settings;
        this.call = call;
        this.number = number;
        this.library = library;
        this.ours = ours;
        got = ours.outcome();
        expected = outcomeOfLibrary();
    }

    /** In messages of {@code ZuphinkaPool} the limit of a wait is missing. */
    private Outcome outcomeOfLibrary() {
        Outcome outcome = library.outcome();
        if (!settings.isInPlace) {
            outcome.result = outcome.result.replaceFirst(", borrowMaxWaitDuration=.*", "");
        }
        return outcome;
    }

    Outcome expected() {
        return expected;
    }

    /** Invalidates an object of Commons Pool whose place it has lost, as part of the call. */
    void invalidate(int lost) {
        library.invalidate(lost);
        expected = outcomeOfLibrary();
    }

    /** No longer compares the state of an object that Commons Pool has lost, and does not destroy. */
    void forgetState(int number) {
        library.items.forgetState(number);
        ours.items.forgetState(number);
        expected.leaveOut(Side.STATES);
    }

    /** Returns how the next call of the factory ends that destroys an object. */
    Callback destruction(int destroyed) {
        return library.items.next(Callback.Method.DESTROY, destroyed);
    }

    /** Returns whether a property of Commons Pool is set. */
    boolean is(String getter) {
        return (boolean) library.properties().get(getter);
    }

    boolean isSame() {
        return expected.isSame(got);
    }

    /** Expects what came of the call of {@code ZuphinkaPool}, after which the pools have different objects. */
    boolean accept() {
        expected = got;
        setLast();
        return true;
    }

    void setLast() {
        isLast = true;
    }

    boolean isLast() {
        return isLast;
    }
}
