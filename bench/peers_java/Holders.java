import org.apache.commons.pool2.BasePooledObjectFactory;
import org.apache.commons.pool2.PooledObject;
import org.apache.commons.pool2.impl.DefaultPooledObject;
import org.apache.commons.pool2.impl.GenericObjectPoolConfig;

/** Makes the objects of a contestant. It is empty: it neither activates nor passivates. */
class Holders extends BasePooledObjectFactory<Holders.Holder> {
    static final class Holder {
        volatile long uses;
        volatile boolean isActive;
    }

    /** The same with methods for activation and passivation. */
    static final class Hooked extends Holders {
        @Override
        public void activateObject(PooledObject<Holder> pooled) {
            pooled.getObject().isActive = true;
        }

        @Override
        public void passivateObject(PooledObject<Holder> pooled) {
            pooled.getObject().isActive = false;
        }
    }

    static Holders of(boolean isHooked) {
        return isHooked ? new Hooked() : new Holders();
    }

    /** Returns the configuration of a pool that keeps so many objects. */
    static GenericObjectPoolConfig<Holder> config(int objects) {
        GenericObjectPoolConfig<Holder> config = new GenericObjectPoolConfig<>();
        config.setJmxEnabled(false);
        config.setMaxTotal(objects);
        config.setMaxIdle(objects);
        return config;
    }

    @Override
    public Holder create() {
        return new Holder();
    }

    @Override
    public PooledObject<Holder> wrap(Holder holder) {
        return new DefaultPooledObject<>(holder);
    }
}
