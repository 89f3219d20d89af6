package io.github.zuphinka;

import java.util.NoSuchElementException;

/** What the calls of a pool throw, by how they ended. */
final class Ends {
    private Ends() {}

    /** Returns normally if a call did what it was to do, or if there was nothing to do. */
    static void check(Call<?> call) throws Exception {
        if (call.error != null) {
            throw call.error;
        }
        switch (call.end) {
            case Core.END_LENT:
                return;
            case Core.END_CLOSED:
                checkClosed(call);
                return;
            case Core.END_EXHAUSTED:
                throw new NoSuchElementException(call.shortage.exhausted());
            case Core.END_TIMED_OUT:
            case Core.END_CANCELLED:
                throw timedOut(call);
            case Core.END_NOT_LENT:
                checkNotLent(call);
                return;
            case Core.END_JOURNAL_FULL:
                throwIt(call.obstacle);
                return;
            case Core.END_OUT_OF_MEMORY:
                throw new OutOfMemoryError("zuphinka: no memory for a step");
            case Core.END_CONTRADICTED:
                throw new AssertionError("zuphinka: a call of kind " + call.kind + " contradicts the core");
            case Core.END_ACTIVATE_FAILED:
                throw Work.none("Unable to activate object", call.fault);
            case Core.END_CREATE_TEST_FAILED:
            case Core.END_BORROW_TEST_FAILED:
                checkInvalid(call);
                return;
            default:
                throwIt(call.fault);
        }
    }

    /** Does the same for a call that throws no exception that is checked. */
    static void checkUnchecked(Call<?> call) {
        try {
            check(call);
        } catch (RuntimeException e) {
            throw e;
        } catch (Exception e) {
            throw new AssertionError(e);
        }
    }

    /** A fill of a closed pool does nothing. A call that slept has been interrupted by the close. */
    private static void checkClosed(Call<?> call) {
        if (call.kind != Core.KIND_FILL) {
            throw new IllegalStateException("Pool not open", call.hasSlept() ? new InterruptedException("The pool was closed") : null);
        }
    }

    /** A use of an object that is not lent does not matter. */
    private static void checkNotLent(Call<?> call) {
        if (call.kind != Core.KIND_TOUCH) {
            boolean isReturn = call.kind == Core.KIND_RETURN;
            throw new IllegalStateException(isReturn ? "Object has already been returned to this pool or is invalid" : "Object is not lent");
        }
    }

    /** A new object that is invalid counts for nothing, except for a borrow. */
    private static void checkInvalid(Call<?> call) throws Exception {
        if (call.kind == Core.KIND_BORROW) {
            throw Work.none("Unable to validate object", call.fault);
        }
        throwIt(call.fault == Work.INVALID ? null : call.fault);
    }

    /** Returns the exception for a borrow whose time is over. If its thread is interrupted it ends by that, also if it may not wait. */
    private static Exception timedOut(Call<?> call) {
        boolean isInterrupted = Thread.interrupted() || call.obstacle != null;
        return isInterrupted ? new InterruptedException() : new NoSuchElementException(call.shortage.timeout());
    }

    static void throwError(Throwable failure) {
        if (failure instanceof Error) {
            throw (Error) failure;
        }
    }

    private static void throwIt(Throwable failure) throws Exception {
        throwError(failure);
        if (failure != null) {
            throw (Exception) failure;
        }
    }
}
