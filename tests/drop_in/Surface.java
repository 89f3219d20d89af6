import java.lang.reflect.Constructor;
import java.lang.reflect.Executable;
import java.lang.reflect.Field;
import java.lang.reflect.Method;
import java.lang.reflect.Modifier;
import java.net.MalformedURLException;
import java.net.URL;
import java.net.URLClassLoader;
import java.nio.file.Path;
import java.util.Arrays;
import java.util.Set;
import java.util.TreeSet;
import java.util.stream.Stream;

/**
 * Compares the public and protected members of two classes of one name.
 *
 * <p>{@code Surface CLASS JARS OTHERS} loads the class from two lists of jars, and prints each member that one of them has and the other has not. The
 * last line is {@code N members}.
 */
public final class Surface {
    private Surface() {}

    private static Class<?> loaded(String name, String jars) throws Exception {
        URL[] urls = Stream.of(jars.split(":")).map(Surface::url).toArray(URL[]::new);
        return Class.forName(name, false, new URLClassLoader(urls, ClassLoader.getPlatformClassLoader()));
    }

    private static URL url(String jar) {
        try {
            return Path.of(jar).toUri().toURL();
        } catch (MalformedURLException e) {
            throw new IllegalArgumentException(jar, e);
        }
    }

    private static boolean isVisible(int modifiers) {
        return Modifier.isPublic(modifiers) || Modifier.isProtected(modifiers);
    }

    private static String text(Executable member, String result) {
        String access = Modifier.isPublic(member.getModifiers()) ? "public " : "protected ";
        String fixed = Modifier.isStatic(member.getModifiers()) ? "static " : "";
        return access + fixed + result + Arrays.toString(member.getGenericParameterTypes()) + Arrays.toString(member.getExceptionTypes());
    }

    /** Returns the members of a class, with those that it inherits, except those of Object. */
    private static Set<String> members(Class<?> type) {
        Set<String> found = new TreeSet<>();
        for (Constructor<?> made : type.getDeclaredConstructors()) {
            if (isVisible(made.getModifiers())) {
                found.add(text(made, "new "));
            }
        }
        Arrays.stream(type.getInterfaces()).forEach(implemented -> found.add("implements " + implemented.getName()));
        for (Class<?> each = type; each != Object.class; each = each.getSuperclass()) {
            addMethods(each, found);
            addFields(each, found);
        }
        return found;
    }

    private static void addMethods(Class<?> type, Set<String> found) {
        for (Method method : type.getDeclaredMethods()) {
            if (isVisible(method.getModifiers()) && !method.isSynthetic()) {
                found.add(text(method, method.getGenericReturnType() + " " + method.getName()));
            }
        }
    }

    private static void addFields(Class<?> type, Set<String> found) {
        for (Field field : type.getDeclaredFields()) {
            if (isVisible(field.getModifiers())) {
                found.add(field.toGenericString());
            }
        }
    }

    public static void main(String[] words) throws Exception {
        Set<String> ones = members(loaded(words[0], words[1]));
        Set<String> others = members(loaded(words[0], words[2]));
        ones.stream().filter(member -> !others.contains(member)).forEach(member -> System.out.println("- " + member));
        others.stream().filter(member -> !ones.contains(member)).forEach(member -> System.out.println("+ " + member));
        System.out.println(ones.size() + " members");
    }
}
