import java.util.function.Predicate;

/** The differences that calls of one thread meet, by their rows in docs/migrate.md. Their rules apply in this order. */
enum Difference {
    NOT_PASSIVATED("Passivation fails in `add`", Rules::mendAdd),
    RETURN_THROWN("`destroy` and `validate` throw", Rules::mendReturn),
    BORROW_THROWN("`destroy` and `validate` throw", Rules::countInvalid),
    EVICTION_THROWN("`destroy` and `validate` throw", Rules::endEviction),
    NULL_MADE("`makeObject` returns null", Rules::freePlaceOfNull),
    FAILED_MAKE("A failed make", Rules::countFailedMake),
    CREATION_THROWN("The test of a new object (`testOnCreate`) throws in a borrow", Rules::nameThrownTest),
    FAILED_IN_BORROW("The test of a new object (`testOnCreate`) fails in a borrow", Rules::nameFailedTest),
    FAILED_IN_ADD("The same in `add` or `fill`", Rules::destroyAdded),
    FILL("`fill` (`preparePool`)", Rules::passivateInFill),
    ORDER("`clear` and `close` under `lifo`", Rules::reverseOrder),
    NOT_LENT("An object that is not lent is used", Rules::ignoreUse),
    SWALLOWED("Swallowed errors", Rules::tellMore),
    IDLE_INVALIDATED("An idle object is invalidated", Rules::refuseInvalidation),
    NO_LIMIT("`maxIdle` is unlimited, and `minIdle` above 0", Rules::keepMinIdle),
    /** That of the class PlacedPool. */
    CONTINUED("Where an eviction run continues", step -> false);

    /** The first cell of the row. */
    final String row;
    /** Changes what is expected in a step, and returns whether it has met the difference. */
    final Predicate<Step> rule;

    Difference(String row, Predicate<Step> rule) {
        this.row = row;
        this.rule = rule;
    }
}
