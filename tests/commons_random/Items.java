import java.util.ArrayList;
import java.util.List;
import java.util.Map;
import java.util.NoSuchElementException;
import java.util.TreeMap;
import java.util.function.Function;
import java.util.stream.Collectors;
import org.apache.commons.pool2.BasePooledObjectFactory;
import org.apache.commons.pool2.DestroyMode;
import org.apache.commons.pool2.PooledObject;

/** A factory that fails as the settings of its run say, and notes each of its calls. It inherits all methods that it need not have. */
class Items extends BasePooledObjectFactory<Item> {
    final Settings settings;
    private final Function<Item, PooledObject<Item>> wrapper;
    private final List<Item> made = new ArrayList<>();
    /** The wrappers of the objects, by their numbers. */
    private final Map<Integer, PooledObject<Item>> wrappers = new TreeMap<>();
    private final List<Callback> callbacks = new ArrayList<>();
    private Call call;

    private Items(Settings settings, Function<Item, PooledObject<Item>> wrapper) {
        this.settings = settings;
        this.wrapper = wrapper;
    }

    static Items of(Settings settings, Function<Item, PooledObject<Item>> wrapper) {
        switch (settings.hooks) {
            case ALL:
                return new ActivatedItems(settings, wrapper);
            case TEST:
                return new TestedItems(settings, wrapper);
            default:
                return new Items(settings, wrapper);
        }
    }

    /** Begins to note the calls that a call of the pool makes. */
    void begin(Call begun) {
        call = begun;
        callbacks.clear();
    }

    List<Callback> callbacks() {
        return callbacks;
    }

    /** Returns how many objects were made or failed. */
    int size() {
        return made.size();
    }

    /** Returns an object that was made, or one that is of no pool. */
    Item item(int number) {
        return number == Item.NONE ? null : number == Item.FOREIGN ? new Item(number) : made.get(number);
    }

    /** Returns the states of the objects, as their wrappers say. */
    String states() {
        return wrappers.entrySet().stream().map(entry -> entry.getKey() + " " + entry.getValue().getState()).collect(Collectors.joining(", "));
    }

    /** Leaves an object out of them. */
    void forgetState(int number) {
        wrappers.remove(number);
    }

    /** Returns the call of the factory that comes next for an object. */
    Callback next(Callback.Method method, int number) {
        boolean isNew = method == Callback.Method.MAKE;
        long before = callbacks.stream().filter(callback -> callback.is(method) && (isNew || callback.number == number)).count();
        return new Callback(method, number, settings.end(call, method, isNew ? 0 : number, before));
    }

    /** Notes a call of the factory, and returns how it ends, unless it throws. */
    final Callback.End note(Callback.Method method, int number) throws Exception {
        Callback callback = next(method, number);
        callbacks.add(callback);
        if (callback.end == Callback.End.THROWS) {
            throw failure(callback);
        }
        return callback.end;
    }

    /** Returns what a call of the factory throws. Some are those of a pool: the factory may have its objects from another one. */
    static Exception failure(Callback callback) {
        switch (callback.number % 6) {
            case 0:
                return new IllegalArgumentException("" + callback);
            case 1:
                return new NoSuchElementException("Pool exhausted");
            case 2:
                return new IllegalStateException("Pool not open");
            case 3:
                return callback.is(Callback.Method.VALIDATE) ? new RuntimeException() : new InterruptedException("" + callback);
            default:
                return callback.is(Callback.Method.VALIDATE) ? new NullPointerException() : new Exception("" + callback);
        }
    }

    @Override
    public final PooledObject<Item> makeObject() throws Exception {
        Item item = create();
        return note(Callback.Method.MAKE, item.number) == Callback.End.NULL ? null : wrap(item);
    }

    @Override
    public final Item create() {
        made.add(new Item(made.size()));
        return made.get(made.size() - 1);
    }

    @Override
    public final PooledObject<Item> wrap(Item item) {
        PooledObject<Item> pooled = wrapper.apply(item);
        wrappers.put(item.number, pooled);
        return pooled;
    }

    /** One that also tests and destroys. */
    private static class TestedItems extends Items {
        TestedItems(Settings settings, Function<Item, PooledObject<Item>> wrapper) {
            super(settings, wrapper);
        }

        @Override
        public final boolean validateObject(PooledObject<Item> pooled) {
            try {
                return pooled != null && note(Callback.Method.VALIDATE, pooled.getObject().number) == Callback.End.GOOD;
            } catch (RuntimeException e) {
                throw e;
            } catch (Exception e) {
                throw new AssertionError(e);
            }
        }

        @Override
        public final void destroyObject(PooledObject<Item> pooled, DestroyMode mode) throws Exception {
            boolean isAbandoned = mode == DestroyMode.ABANDONED;
            note(isAbandoned ? Callback.Method.DESTROY_ABANDONED : Callback.Method.DESTROY, pooled.getObject().number);
        }
    }

    /** One that also activates and passivates. */
    private static final class ActivatedItems extends TestedItems {
        ActivatedItems(Settings settings, Function<Item, PooledObject<Item>> wrapper) {
            super(settings, wrapper);
        }

        @Override
        public void activateObject(PooledObject<Item> pooled) throws Exception {
            note(Callback.Method.ACTIVATE, pooled.getObject().number);
        }

        @Override
        public void passivateObject(PooledObject<Item> pooled) throws Exception {
            note(Callback.Method.PASSIVATE, pooled.getObject().number);
        }
    }
}
