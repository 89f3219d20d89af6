import java.util.ArrayList;
import java.util.LinkedHashMap;
import java.util.List;
import java.util.Map;
import java.util.Random;

/**
 * Runs of random calls of one thread, each of Commons Pool and of another pool with the same random settings, over factories that fail alike.
 *
 * <p>{@code CommonsRandom POOL SEED RUNS SHOWN} makes runs with the seeds from SEED on. POOL is {@code ZuphinkaPool}, or {@code InPlacePool}: the
 * class in place of the library's, under this name. A run fails at the first call whose outcome is neither the same in both nor the one that the rule
 * of a difference says. It prints the first SHOWN such calls, each with few calls before it; how often each difference was met; and how many runs
 * passed and failed. If SHOWN is 0 it ends with the first run that fails.
 */
public final class CommonsRandom {
    private static final int CALLS = 200;
    private static final int CALLS_AFTER_CLOSE = 20;

    private final Map<String, Integer> met = new LinkedHashMap<>();
    private final int shown;
    private final boolean isInPlace;
    private long compared;
    private int failed;

    private CommonsRandom(int shown, boolean isInPlace) {
        this.shown = shown;
        this.isInPlace = isInPlace;
        for (Difference difference : Difference.values()) {
            met.put(difference.row, 0);
        }
    }

    private void play(int seed) {
        Random random = new Random(seed);
        Settings settings = new Settings(random, isInPlace);
        List<Call> calls = settings.calls(random, CALLS, CALLS_AFTER_CLOSE);
        Comparison comparison = Comparison.of(settings, calls);
        compared += comparison.compared();
        comparison.met().forEach((difference, times) -> met.merge(difference.row, times, Integer::sum));
        if (comparison.fault() != null && failed++ < shown) {
            show(seed, settings, shortened(settings, calls));
        }
    }

    /** Leaves out calls, as long as some call still differs. */
    private static List<Call> shortened(Settings settings, List<Call> calls) {
        List<Call> shorter = withoutEach(settings, calls);
        return shorter.size() == calls.size() ? calls : shortened(settings, shorter);
    }

    private static List<Call> withoutEach(Settings settings, List<Call> calls) {
        List<Call> left = new ArrayList<>(calls);
        for (int index = left.size() - 1; index >= 0; index--) {
            Call call = left.remove(index);
            if (Comparison.of(settings, left).fault() == null) {
                left.add(index, call);
            }
        }
        return left;
    }

    private static void show(int seed, Settings settings, List<Call> calls) {
        Comparison comparison = Comparison.of(settings, calls);
        System.out.println("seed " + seed + ": " + settings);
        comparison.texts().forEach(text -> System.out.println("    " + text));
        System.out.println(comparison.fault());
    }

    public static void main(String[] words) {
        int first = Integer.parseInt(words[1]);
        int runs = Integer.parseInt(words[2]);
        CommonsRandom all = new CommonsRandom(Integer.parseInt(words[3]), words[0].equals("InPlacePool"));
        for (int seed = first; seed < first + runs && (all.shown > 0 || all.failed == 0); seed++) {
            all.play(seed);
        }
        System.out.println(all.compared + " calls in " + runs + " runs");
        all.met.forEach((row, times) -> System.out.println("met " + times + " times: " + row));
        System.out.println(runs - all.failed + " passed, " + all.failed + " failed");
    }
}
