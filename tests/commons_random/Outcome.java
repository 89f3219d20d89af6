import java.util.ArrayList;
import java.util.Comparator;
import java.util.List;
import java.util.Map;
import java.util.TreeMap;

/**
 * What came of a call: its result or what it threw, the calls of the factory in their order, what the pool told whoever receives swallowed exceptions,
 * and the numbers of the pool afterwards.
 */
final class Outcome {
    static final List<String> COUNTS = List.of("created", "borrowed", "returned", "destroyed", "evicted", "invalid");

    String result;
    /** The object that was lent, or null. */
    final Integer lent;
    final List<Callback> callbacks;
    /** The messages, sorted. */
    final List<String> swallowed;
    /** The numbers of objects, and by how much each count grew. */
    final Map<String, Long> numbers;
    /** The properties of the pool, and its objects. */
    private final Map<String, String> properties;

    Outcome(String result, Integer lent, List<Callback> callbacks, List<String> swallowed, Map<String, Long> numbers,
            Map<String, String> properties) {
        this.properties = properties;
        this.result = result;
        this.lent = lent;
        this.callbacks = sorted(callbacks);
        this.swallowed = new ArrayList<>(swallowed);
        this.swallowed.sort(null);
        this.numbers = numbers;
    }

    /** Sorts abandoned objects that are destroyed one after another: Commons Pool does that in the order of their hashes. */
    private static List<Callback> sorted(List<Callback> callbacks) {
        List<Callback> sorted = new ArrayList<>(callbacks);
        for (int start = 0; start < sorted.size(); start++) {
            int end = start;
            while (end < sorted.size() && sorted.get(end).is(Callback.Method.DESTROY_ABANDONED)) {
                end++;
            }
            sorted.subList(start, end).sort(Comparator.comparing(callback -> callback.number));
        }
        return sorted;
    }

    void add(String name, long change) {
        numbers.merge(name, change, Long::sum);
    }

    long number(String name) {
        return numbers.get(name);
    }

    /** Leaves a property out of the comparison. */
    void leaveOut(String property) {
        properties.remove(property);
    }

    boolean isSame(Outcome other) {
        return toString().equals(other.toString()) && differing(other).isEmpty();
    }

    /** Returns the properties that another outcome has with other values. What a pool does not have is not compared. */
    Map<String, String> differing(Outcome other) {
        Map<String, String> differing = new TreeMap<>(properties);
        differing.keySet().retainAll(other.properties.keySet());
        differing.entrySet().removeAll(other.properties.entrySet());
        return differing;
    }

    @Override
    public String toString() {
        return result + " " + callbacks + " " + (swallowed.isEmpty() ? "" : "swallowed " + swallowed + " ") + numbers;
    }
}
