import io.github.zuphinka.TestClock;
import io.github.zuphinka.ZuphinkaPool;
import java.time.Duration;
import java.util.ArrayList;
import java.util.EnumMap;
import java.util.List;
import java.util.Map;
import java.util.stream.Collectors;
import java.util.stream.IntStream;
import org.apache.commons.pool2.impl.DefaultPooledObject;
import org.apache.commons.pool2.impl.InPlacePool;
import org.apache.commons.pool2.impl.PlacedPool;

/** One run: the same calls of Commons Pool and of another pool, compared one by one, until they differ or the pools have different objects. */
final class Comparison {
    private final Settings settings;
    private final PlacedPool<Item> pool;
    private final Side library;
    private final Side ours;
    /** The objects that were lent, and neither returned nor invalidated. */
    private final List<Integer> held = new ArrayList<>();
    private final List<String> texts = new ArrayList<>();
    private final Map<Difference, Integer> met = new EnumMap<>(Difference.class);
    private int compared;
    private String fault;

    private Comparison(Settings settings) {
        this.settings = settings;
        Items first = Items.of(settings, TimedItem::new);
        pool = new PlacedPool<>(first, settings.config, settings.abandoned);
        library = Side.of(first, pool);
        ours = settings.isInPlace ? inPlace() : zuphinka();
    }

    private Side inPlace() {
        Items items = Items.of(settings, TimedItem::new);
        return Side.of(items, new InPlacePool<>(items, settings.config, settings.abandoned));
    }

    private Side zuphinka() {
        Items items = Items.of(settings, DefaultPooledObject::new);
        return Side.of(items, new ZuphinkaPool<>(items, settings.config, settings.abandoned) {
            @Override
            protected void swallowed(Exception failure) {
                ours.swallow(failure);
            }
        });
    }

    static Comparison of(Settings settings, List<Call> calls) {
        Comparison comparison = new Comparison(settings);
        for (Call call : calls) {
            if (!comparison.goesOnAfter(call)) {
                break;
            }
        }
        if (comparison.pool.moves() > 0) {
            comparison.met.put(Difference.CONTINUED, comparison.pool.moves());
        }
        return comparison;
    }

    private boolean goesOnAfter(Call call) {
        if (call.isOf(Call.Kind.HOUR)) {
            TestClock.add(Duration.ofHours(1));
            texts.add(call.text(0));
            return true;
        }
        // The rules look at the end of a call, and an object that fails its test there ends no addObjects.
        boolean isUnclear = call.isOf(Call.Kind.ADD_TWO) && pool.getTestOnCreate();
        if (isUnclear || call.isChange() && isLeftOut(Change.of(call))) {
            return true;
        }
        List<Integer> objects = objectsFor(call);
        return objects.isEmpty() || compare(call, objects.get(call.chance % objects.size()));
    }

    /** Returns whether the pages name a difference in what a change does, or only Commons Pool has its setter. */
    private boolean isLeftOut(Change change) {
        // In Commons Pool idle objects keep their positions when lifo changes.
        boolean isReordered = pool.getNumIdle() > 0 && change.changesOrder(pool.getLifo());
        // The messages of ZuphinkaPool are others, without a policy it has that of the core, and it throws errors of a policy.
        boolean isOther = !settings.isInPlace && change.isBad();
        return isReordered || isOther || !ours.properties().has(change.setter);
    }

    /** Returns the objects that a call may be about, or any one if it is about none. */
    private List<Integer> objectsFor(Call call) {
        if (call.isForHeld()) {
            return held;
        }
        IntStream others = IntStream.range(Item.NONE, call.isForOther() ? ours.items.size() : 0);
        return others.filter(number -> !held.contains(number)).boxed().collect(Collectors.toList());
    }

    private boolean compare(Call call, int number) {
        library.make(call, number);
        ours.make(call, number);
        Step step = new Step(settings, call, number, library, ours);
        for (Difference difference : Difference.values()) {
            if (difference.rule.test(step)) {
                met.merge(difference, 1, Integer::sum);
            }
        }
        compared++;
        noteHolder(call, number, step.got);
        texts.add(call.text(number) + " = " + step.got);
        if (!step.isSame()) {
            fault = "expected: " + step.expected() + " " + step.expected().differing(step.got)
                    + "\n     got: " + step.got + " " + step.got.differing(step.expected());
        }
        return fault == null && !step.isLast();
    }

    private void noteHolder(Call call, int number, Outcome got) {
        if (call.isBorrow() && got.lent != null) {
            held.add(got.lent);
        }
        if (call.isOf(Call.Kind.RETURN, Call.Kind.INVALIDATE)) {
            held.remove((Integer) number);
        }
    }

    /** Returns what was expected and what came of the call that differs, or null. */
    String fault() {
        return fault;
    }

    int compared() {
        return compared;
    }

    Map<Difference, Integer> met() {
        return met;
    }

    /** Returns the calls, one in a line, each with what came of it. */
    List<String> texts() {
        return texts;
    }
}
