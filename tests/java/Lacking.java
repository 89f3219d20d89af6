import java.io.IOException;
import java.io.InputStream;
import org.apache.commons.pool2.BasePooledObjectFactory;
import org.apache.commons.pool2.PooledObject;
import org.apache.commons.pool2.PooledObjectFactory;
import org.apache.commons.pool2.impl.DefaultPooledObject;

/** Makes plain objects, and has a method of a class that its class loader does not find. */
public final class Lacking extends BasePooledObjectFactory<Object> {
    /** The class that is missing. */
    public static final class Missing {}

    /** Finds all classes but that one, and defines the factory itself. */
    private static final class Loader extends ClassLoader {
        Loader() {
            super(Lacking.class.getClassLoader());
        }

        @Override
        protected Class<?> loadClass(String name, boolean isToBeResolved) throws ClassNotFoundException {
            if (name.equals(Missing.class.getName())) {
                throw new ClassNotFoundException(name);
            }
            return name.equals(Lacking.class.getName()) ? define(name) : super.loadClass(name, isToBeResolved);
        }

        private Class<?> define(String name) throws ClassNotFoundException {
            try (InputStream file = getParent().getResourceAsStream(name + ".class")) {
                byte[] bytes = file.readAllBytes();
                return defineClass(name, bytes, 0, bytes.length);
            } catch (IOException e) {
                throw new ClassNotFoundException(name, e);
            }
        }
    }

    /** Returns such a factory. */
    @SuppressWarnings("unchecked")
    static PooledObjectFactory<Object> make() throws ReflectiveOperationException {
        return (PooledObjectFactory<Object>) new Loader().loadClass(Lacking.class.getName()).getConstructor().newInstance();
    }

    @Override
    public Object create() {
        return new Object();
    }

    @Override
    public PooledObject<Object> wrap(Object object) {
        return new DefaultPooledObject<>(object);
    }

    /** Its parameter is of the class that is missing. */
    public void call(Missing missing) {}
}
