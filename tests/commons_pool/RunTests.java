import static java.util.stream.Collectors.toList;

import java.io.IOException;
import java.io.PrintWriter;
import java.nio.file.Files;
import java.nio.file.Path;
import java.util.Arrays;
import java.util.List;
import java.util.concurrent.TimeUnit;
import org.junit.platform.engine.TestExecutionResult;
import org.junit.platform.engine.discovery.DiscoverySelectors;
import org.junit.platform.engine.support.descriptor.MethodSource;
import org.junit.platform.launcher.Launcher;
import org.junit.platform.launcher.TestExecutionListener;
import org.junit.platform.launcher.TestIdentifier;
import org.junit.platform.launcher.TestPlan;
import org.junit.platform.launcher.core.LauncherDiscoveryRequestBuilder;
import org.junit.platform.launcher.core.LauncherFactory;

/**
 * Lists or runs tests of JUnit 5.
 *
 * <p>{@code RunTests list FILE CLASS..} writes the name of each test of the classes to a file, as CLASS#METHOD, one to a line.
 *
 * <p>{@code RunTests run FILE CLASS#METHOD..} runs tests, and writes a line when one begins and when it has ended: the name, {@code unfinished},
 * {@code passed} or {@code failed:} and the line of the source, for how many milliseconds it ran, and what it threw.
 */
public final class RunTests {
    private RunTests() {}

    /** Writes a line for each test that begins or ends. */
    private static final class Ends implements TestExecutionListener {
        private final PrintWriter lines;
        private long began;

        Ends(PrintWriter lines) {
            this.lines = lines;
        }

        @Override
        public void executionStarted(TestIdentifier test) {
            began = System.nanoTime();
            if (test.isTest()) {
                write(test, "unfinished", 0, "");
            }
        }

        @Override
        public void executionFinished(TestIdentifier test, TestExecutionResult result) {
            if (test.isTest()) {
                boolean hasPassed = result.getStatus() == TestExecutionResult.Status.SUCCESSFUL;
                String end = hasPassed ? "passed" : "failed:" + result.getThrowable().map(Ends::place).orElse("");
                String thrown = result.getThrowable().map(Throwable::toString).orElse("").replaceAll("\\s+", " ");
                write(test, end, TimeUnit.NANOSECONDS.toMillis(System.nanoTime() - began), thrown);
            }
        }

        private void write(TestIdentifier test, String end, long millis, String thrown) {
            lines.println(String.join(" ", name(test), end, Long.toString(millis), thrown));
        }

        /** Returns the file and the line of the test by which it was thrown. */
        private static String place(Throwable thrown) {
            return Arrays.stream(thrown.getStackTrace())
                    .filter(frame -> frame.getFileName() != null && frame.getFileName().matches("(Base)?Test\\w+\\.java"))
                    .findFirst()
                    .map(frame -> frame.getFileName() + ":" + frame.getLineNumber())
                    .orElse("");
        }
    }

    private static String name(TestIdentifier test) {
        MethodSource source = (MethodSource) test.getSource().orElseThrow();
        return source.getClassName() + "#" + source.getMethodName();
    }

    private static TestPlan plan(Launcher launcher, List<String> names) {
        return launcher.discover(LauncherDiscoveryRequestBuilder.request()
                .selectors(names.stream()
                        .map(name -> name.contains("#") ? DiscoverySelectors.selectMethod(name) : DiscoverySelectors.selectClass(name))
                        .collect(toList()))
                .build());
    }

    private static void list(TestPlan plan, PrintWriter lines) {
        plan.getRoots().stream()
                .flatMap(root -> plan.getDescendants(root).stream())
                .filter(TestIdentifier::isTest)
                .forEach(test -> lines.println(name(test)));
    }

    public static void main(String[] words) throws IOException {
        Launcher launcher = LauncherFactory.create();
        TestPlan plan = plan(launcher, Arrays.asList(words).subList(2, words.length));
        try (PrintWriter lines = new PrintWriter(Files.newBufferedWriter(Path.of(words[1])), true)) {
            if (words[0].equals("list")) {
                list(plan, lines);
            } else {
                launcher.execute(plan, new Ends(lines));
            }
        }
        System.exit(0); // also if a test has left a thread
    }
}
