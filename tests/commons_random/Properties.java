import java.lang.reflect.InvocationTargetException;
import java.lang.reflect.Method;
import java.util.Arrays;
import java.util.HashMap;
import java.util.List;
import java.util.Map;
import java.util.Set;
import java.util.TreeMap;
import java.util.stream.Collectors;
import org.apache.commons.pool2.impl.GenericObjectPool;

/** The properties of a pool, by the names of the library's getters and setters, as far as the pool has them. */
final class Properties {
    /** The getters that are compared as numbers; that tell the time of a call; and of objects, of which each pool has its own. */
    private static final Set<String> LEFT_OUT = Set.of("getClass", "getBorrowedCount", "getReturnedCount", "getCreatedCount", "getDestroyedCount",
            "getDestroyedByEvictorCount", "getDestroyedByBorrowValidationCount", "getNumIdle", "getNumActive", "getNumWaiters", "isClosed",
            "getMaxBorrowWaitTimeMillis", "getMeanBorrowWaitTimeMillis", "getCreationStackTrace", "getFactory", "getEvictionPolicy",
            "getSwallowedExceptionListener");
    private static final int MILLIS_OF_MINUTE = 60_000;
    /** By this the times are moved that are rounded to minutes, so that no mean of hours is near half a minute. */
    private static final int MOVED_MILLIS = 17_000;

    private final Object pool;
    /** Its methods by their names and numbers of parameters. */
    private final Map<String, Method> methods = new HashMap<>();
    private final List<String> getters;

    Properties(Object pool) {
        this.pool = pool;
        for (Method method : pool.getClass().getMethods()) {
            method.setAccessible(true);
            methods.put(method.getName() + method.getParameterCount(), method);
        }
        getters = Arrays.stream(GenericObjectPool.class.getMethods())
                .map(Method::getName)
                .filter(name -> name.matches("(get|is)[A-Z].*") && !LEFT_OUT.contains(name) && methods.containsKey(name + 0))
                .distinct()
                .sorted()
                .collect(Collectors.toList());
    }

    /** Calls a method of the pool. Throws what it throws. */
    private Object call(Method method, Object... words) throws Exception {
        try {
            return method.invoke(pool, words);
        } catch (InvocationTargetException e) {
            if (e.getCause() instanceof Exception) {
                throw (Exception) e.getCause();
            }
            throw (Error) e.getCause();
        }
    }

    boolean has(String setter) {
        return methods.containsKey(setter + 1);
    }

    void set(String setter, Object value) throws Exception {
        call(methods.get(setter + 1), value);
    }

    /** Returns what a getter returns, or what it throws as a text. */
    Object get(String getter) {
        try {
            return call(methods.get(getter + 0));
        } catch (Exception e) {
            return Side.text(e);
        }
    }

    /** Leaves a getter out from now on. */
    void forget(String getter) {
        getters.remove(getter);
    }

    /** Returns the value of each getter, of means of times in minutes. */
    Map<String, String> all() {
        Map<String, String> values = new TreeMap<>();
        for (String getter : getters) {
            Object value = get(getter);
            boolean isMean = getter.startsWith("getMean");
            values.put(getter, "" + (isMean ? Math.round((double) ((long) value + MOVED_MILLIS) / MILLIS_OF_MINUTE) : value));
        }
        return values;
    }
}
