import java.util.List;
import java.util.Map;
import java.util.Random;
import java.util.TreeMap;
import java.util.function.Function;
import org.apache.commons.pool2.impl.GenericObjectPoolConfig;

/** A call of a setter: its name, and the value. */
final class Change {
    /** The setters whose values are those of random settings. */
    private static final Map<String, Function<GenericObjectPoolConfig<Item>, Object>> OF_SETTINGS = new TreeMap<>(Map.ofEntries(
            Map.entry("setMaxTotal", GenericObjectPoolConfig::getMaxTotal),
            Map.entry("setMaxIdle", GenericObjectPoolConfig::getMaxIdle),
            Map.entry("setMinIdle", GenericObjectPoolConfig::getMinIdle),
            Map.entry("setLifo", GenericObjectPoolConfig::getLifo),
            Map.entry("setBlockWhenExhausted", GenericObjectPoolConfig::getBlockWhenExhausted),
            Map.entry("setMaxWait", GenericObjectPoolConfig::getMaxWaitDuration),
            Map.entry("setTestOnBorrow", GenericObjectPoolConfig::getTestOnBorrow),
            Map.entry("setTestOnCreate", GenericObjectPoolConfig::getTestOnCreate),
            Map.entry("setTestOnReturn", GenericObjectPoolConfig::getTestOnReturn),
            Map.entry("setTestWhileIdle", GenericObjectPoolConfig::getTestWhileIdle),
            Map.entry("setNumTestsPerEvictionRun", GenericObjectPoolConfig::getNumTestsPerEvictionRun),
            Map.entry("setMinEvictableIdle", GenericObjectPoolConfig::getMinEvictableIdleDuration),
            Map.entry("setSoftMinEvictableIdle", GenericObjectPoolConfig::getSoftMinEvictableIdleDuration)));

    /** Of these classes no policy can be made. */
    private static final String NO_POLICY = "java.lang.String";
    private static final String NO_CLASS = "nowhere.Policy";

    final String setter;
    final Object value;

    private Change(String setter, Object value) {
        this.setter = setter;
        this.value = value;
    }

    static Change of(Call call) {
        Random random = new Random(call.chance);
        switch (call.kind) {
            case SET:
                String setter = Settings.one(random, OF_SETTINGS.keySet().toArray(new String[0]));
                return new Change(setter, OF_SETTINGS.get(setter).apply(Settings.config(random)));
            case SET_ALL:
                return new Change("setConfig", Settings.config(random));
            case SET_ABANDONED:
                return new Change("setAbandonedConfig", random.nextInt(3) == 0 ? null : Settings.abandoned(random));
            default:
                return other(random);
        }
    }

    /** A setter whose value is not of random settings. */
    private static Change other(Random random) {
        switch (random.nextInt(5)) {
            case 0:
                return new Change("setEvictionPolicy", Settings.one(random, null, new ThirdsPolicy.Erring(), new ThirdsPolicy(), new ThirdsPolicy()));
            case 1:
                return new Change("setEvictionPolicyClassName", Settings.one(random, ThirdsPolicy.class.getName(), NO_POLICY, NO_CLASS));
            case 2:
                return new Change("setEvictionPolicyClassName", GenericObjectPoolConfig.DEFAULT_EVICTION_POLICY_CLASS_NAME);
            case 3:
                return new Change("setConfig", null);
            default:
                return new Change("setMessagesStatistics", random.nextBoolean());
        }
    }

    /** Returns whether the value is null, names no policy, or ends in an error. */
    boolean isBad() {
        boolean isNull = value == null && !setter.equals("setAbandonedConfig");
        return isNull || NO_POLICY.equals(value) || NO_CLASS.equals(value) || value instanceof ThirdsPolicy.Erring;
    }

    /** Returns whether it changes the order of borrows from a pool with this {@code lifo}. */
    boolean changesOrder(Object lifo) {
        Object next = value instanceof GenericObjectPoolConfig ? ((GenericObjectPoolConfig<?>) value).getLifo() : value;
        return next != null && List.of("setConfig", "setLifo").contains(setter) && !lifo.equals(next);
    }

    @Override
    public String toString() {
        return setter + "(" + (value instanceof GenericObjectPoolConfig ? Settings.text((GenericObjectPoolConfig<?>) value) : value) + ")";
    }
}
