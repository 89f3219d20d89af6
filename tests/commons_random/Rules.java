import java.util.Collections;
import java.util.List;

/** What the differences change: each rule makes, of what came of a call of Commons Pool, what is expected of {@code ZuphinkaPool}. */
final class Rules {
    private Rules() {}

    private static Callback last(Step step) {
        List<Callback> callbacks = step.expected().callbacks;
        return callbacks.isEmpty() ? null : callbacks.get(callbacks.size() - 1);
    }

    /** Commons Pool has lost the place of an added object that was not passivated. */
    static boolean mendAdd(Step step) {
        Callback last = last(step);
        boolean isMet = step.call.isOf(Call.Kind.ADD, Call.Kind.ADD_TWO) && last != null && last.isBad(Callback.Method.PASSIVATE);
        if (isMet) {
            step.invalidate(last.number);
        }
        return isMet;
    }

    /** In Commons Pool an object whose test threw is being returned for ever. */
    static boolean mendReturn(Step step) {
        Callback last = last(step);
        boolean isMet = step.call.isOf(Call.Kind.RETURN) && last != null && last.hasThrown(Callback.Method.VALIDATE);
        if (isMet) {
            step.library.properties().forget("getMeanActiveTimeMillis"); // it leaves out this loan
            step.invalidate(last.number);
            step.expected().result = "done";
            step.expected().add("returned", 1);
        }
        return isMet;
    }

    /** Commons Pool does not count an object that failed its test in a borrow, if its destruction throws. */
    static boolean countInvalid(Step step) {
        List<Callback> callbacks = step.expected().callbacks;
        boolean isMet = false;
        for (int index = 1; index < callbacks.size() && step.call.isBorrow(); index++) {
            if (callbacks.get(index).hasThrown(Callback.Method.DESTROY) && callbacks.get(index - 1).isBad(Callback.Method.VALIDATE)) {
                step.expected().add("invalid", 1);
                isMet = true;
            }
        }
        return isMet;
    }

    /** An eviction run of Commons Pool ends when a test or a destruction throws. */
    static boolean endEviction(Step step) {
        List<Callback> begun = step.expected().callbacks;
        List<Callback> all = step.got.callbacks;
        boolean hasThrown = begun.stream().anyMatch(call -> call.hasThrown(Callback.Method.VALIDATE) || call.hasThrown(Callback.Method.DESTROY));
        boolean isMet = step.call.isOf(Call.Kind.EVICT) && hasThrown && !step.expected().result.equals("done");
        boolean isThrown = step.settings.isInPlace;
        boolean isBegunAlike = all.size() >= begun.size() && all.subList(0, begun.size()).equals(begun);
        return isMet && isBegunAlike && step.got.result.equals(isThrown ? step.expected().result : "done") && step.accept();
    }

    /** Commons Pool has lost a place if it was given no object, which it may have counted. */
    static boolean freePlaceOfNull(Step step) {
        Callback last = last(step);
        boolean isMet = last != null && last.end == Callback.End.NULL;
        if (isMet) {
            long made = step.expected().callbacks.stream().filter(callback -> callback.isGood(Callback.Method.MAKE)).count();
            step.expected().result = "NullPointerException: makeObject() returned null";
            step.expected().leaveOut(Side.MESSAGE);
            step.expected().numbers.put("created", step.settings.isInPlace ? made : made + 1);
            step.expected().add("destroyed", step.settings.isInPlace ? 0 : 1);
            step.expected().numbers.put("interrupted", step.call.isInterrupted() ? 1L : 0L); // Commons Pool waits after a test of null
            step.setLast();
        }
        return isMet;
    }

    private static void expectCreatedAndDestroyed(Step step) {
        step.expected().add("created", 1);
        step.expected().add("destroyed", 1);
    }

    static boolean countFailedMake(Step step) {
        boolean hasThrown = step.expected().callbacks.stream().anyMatch(callback -> callback.hasThrown(Callback.Method.MAKE));
        boolean isMet = hasThrown && !step.settings.isInPlace;
        if (isMet) {
            expectCreatedAndDestroyed(step);
        }
        return isMet;
    }

    static boolean nameThrownTest(Step step) {
        Callback test = failedTestOfNew(step);
        boolean isMet = test != null && test.hasThrown(Callback.Method.VALIDATE) && step.call.isBorrow();
        if (isMet) {
            expectDestruction(step, test.number);
            step.expected().result = "NoSuchElementException: Unable to validate object from " + Side.text(Items.failure(test));
            step.expected().leaveOut(Side.MESSAGE);
        }
        return isMet;
    }

    static boolean nameFailedTest(Step step) {
        Callback test = failedTestOfNew(step);
        boolean isMet = test != null && test.end == Callback.End.INVALID && step.call.isBorrow();
        if (isMet) {
            expectDestruction(step, test.number);
            step.expected().result = "NoSuchElementException: Unable to validate object";
            step.expected().leaveOut(Side.MESSAGE);
            step.expected().numbers.put("interrupted", step.call.isInterrupted() ? 1L : 0L); // Commons Pool waits
        }
        return isMet;
    }

    static boolean destroyAdded(Step step) {
        Callback test = failedTestOfNew(step);
        boolean isMet = test != null && !step.call.isBorrow();
        if (isMet) {
            expectDestruction(step, test.number);
        }
        return isMet;
    }

    /** Returns the test of a new object that failed, or null: Commons Pool does not destroy the object. */
    private static Callback failedTestOfNew(Step step) {
        List<Callback> callbacks = step.expected().callbacks;
        Callback last = last(step);
        boolean isNew = step.is("getTestOnCreate") && callbacks.size() > 1 && callbacks.get(callbacks.size() - 2).isGood(Callback.Method.MAKE);
        return isNew && last.isBad(Callback.Method.VALIDATE) ? last : null;
    }

    private static void expectDestruction(Step step, int number) {
        step.expected().callbacks.add(step.destruction(number));
        step.forgetState(number);
        expectCreatedAndDestroyed(step);
    }

    /** A new object that stays is passivated after it was made, and tested. */
    static boolean passivateInFill(Step step) {
        boolean isMet = false;
        List<Callback> callbacks = step.expected().callbacks;
        for (int index = 0; index < callbacks.size() && isPassivated(step); index++) {
            boolean isTested = index + 1 < callbacks.size() && callbacks.get(index + 1).is(Callback.Method.VALIDATE);
            Callback ready = callbacks.get(index + (isTested ? 1 : 0));
            if (callbacks.get(index).isGood(Callback.Method.MAKE) && ready.end == Callback.End.GOOD) {
                index += isTested ? 2 : 1;
                callbacks.add(index, new Callback(Callback.Method.PASSIVATE, ready.number, Callback.End.GOOD));
                isMet = true;
            }
        }
        return isMet;
    }

    private static boolean isPassivated(Step step) {
        return step.call.isOf(Call.Kind.PREPARE) && step.settings.hooks == Settings.Hooks.ALL;
    }

    static boolean reverseOrder(Step step) {
        List<Callback> callbacks = step.expected().callbacks;
        boolean isMet = step.call.isOf(Call.Kind.CLEAR, Call.Kind.CLOSE) && step.is("getLifo") && callbacks.size() > 1;
        if (isMet) {
            Collections.reverse(callbacks);
        }
        return isMet;
    }

    /** Commons Pool fails if the object was destroyed. */
    static boolean ignoreUse(Step step) {
        boolean isUse = step.call.isOf(Call.Kind.USE, Call.Kind.USE_OTHER);
        boolean isMet = isUse && step.expected().result.startsWith("NullPointerException");
        if (isMet) {
            step.expected().result = "done";
        }
        return isMet;
    }

    /** Commons Pool tells its listener less, except where it empties the queue. */
    static boolean tellMore(Step step) {
        List<String> told = step.expected().swallowed;
        List<String> all = step.got.swallowed;
        boolean isMet = all.size() > told.size() && all.containsAll(told) && !step.call.isOf(Call.Kind.CLEAR, Call.Kind.CLOSE);
        if (isMet) {
            told.clear();
            told.addAll(all);
        }
        return isMet;
    }

    static boolean refuseInvalidation(Step step) {
        boolean isMet = step.call.isOf(Call.Kind.INVALIDATE_OTHER) && step.expected().number("destroyed") > 0;
        boolean isRefused = step.got.result.equals("IllegalStateException: Object is not lent");
        return isMet && isRefused && step.got.callbacks.isEmpty() && step.accept();
    }

    static boolean keepMinIdle(Step step) {
        boolean isUnlimited = (int) step.ours.properties().get("getMaxIdle") < 0 && (int) step.ours.properties().get("getMinIdle") >= 0;
        if (isUnlimited) {
            step.expected().leaveOut("getMinIdle"); // in Commons Pool it is negative too
        }
        boolean isFilled = step.call.isOf(Call.Kind.PREPARE) && step.expected().callbacks.isEmpty() && !step.got.callbacks.isEmpty();
        boolean isKept = step.call.isOf(Call.Kind.EVICT) && step.expected().number("evicted") > step.got.number("evicted");
        return isUnlimited && (isFilled || isKept) && step.accept();
    }
}
