package io.github.zuphinka;

import java.io.File;
import java.io.IOException;
import java.io.InputStream;
import java.nio.file.Files;
import java.nio.file.Path;
import java.util.ArrayList;
import java.util.List;
import java.util.stream.Stream;

/**
 * Loads the native library: from the path that {@value #PROPERTY} names, else from the jar, else from {@code java.library.path}. A copy of it is
 * loaded if it is in the jar, or if another class loader has loaded it, since one file is for one class loader.
 */
final class NativeLibrary {
    static final String PROPERTY = "zuphinka.library";
    private static final String NAME = "zuphinka_jni";
    /** The properties whose folders may get the copy, in order: a folder may be full, or may have no files that run. */
    private static final List<String> FOLDERS = List.of("java.io.tmpdir", "user.home", "user.dir");

    private NativeLibrary() {}

    /** Opens what is copied. */
    private interface Source {
        InputStream open() throws IOException;
    }

    static void load() {
        String path = System.getProperty(PROPERTY);
        String packed = "/" + System.mapLibraryName(NAME);
        if (path != null) {
            loadNamed(Path.of(path).toAbsolutePath());
        } else if (NativeLibrary.class.getResource(packed) != null) {
            loadCopy(() -> NativeLibrary.class.getResourceAsStream(packed), new ArrayList<>());
        } else {
            loadInstalled();
        }
    }

    private static void loadNamed(Path file) {
        try {
            System.load(file.toString());
        } catch (UnsatisfiedLinkError e) {
            loadAgain(file, e);
        }
    }

    private static void loadInstalled() {
        try {
            System.loadLibrary(NAME);
        } catch (UnsatisfiedLinkError e) {
            String[] folders = System.getProperty("java.library.path", "").split(File.pathSeparator);
            Stream<Path> files = Stream.of(folders).map(folder -> Path.of(folder, System.mapLibraryName(NAME)).toAbsolutePath());
            loadAgain(files.filter(Files::isRegularFile).findFirst().orElse(null), e);
        }
    }

    /** Loads a copy of a file that could not be loaded, if it is there. */
    private static void loadAgain(Path file, UnsatisfiedLinkError failure) {
        if (file == null || !Files.isRegularFile(file)) {
            throw failed(List.of(failure));
        }
        loadCopy(() -> Files.newInputStream(file), new ArrayList<>(List.of(failure)));
    }

    /** Loads a copy in the first folder in which that is possible. */
    private static void loadCopy(Source source, List<Throwable> failures) {
        for (String property : FOLDERS) {
            try {
                loadCopy(source, Path.of(System.getProperty(property)));
                return;
            } catch (IOException | RuntimeException | UnsatisfiedLinkError e) {
                failures.add(e);
            }
        }
        throw failed(failures);
    }

    /** Loads a copy in a folder. On Linux a loaded library needs no file any more, so the file is deleted at once. */
    private static void loadCopy(Source source, Path to) throws IOException {
        Path folder = Files.createTempDirectory(to, "zuphinka");
        Path file = folder.resolve(System.mapLibraryName(NAME));
        try (InputStream copied = source.open()) {
            Files.copy(copied, file);
            System.load(file.toAbsolutePath().toString());
        } finally {
            Files.deleteIfExists(file);
            Files.delete(folder);
        }
    }

    private static UnsatisfiedLinkError failed(List<Throwable> failures) {
        String hint = "zuphinka: the native library cannot be loaded. The property " + PROPERTY + " names its file, and " + FOLDERS.get(0)
                + " a folder for a copy";
        UnsatisfiedLinkError failed = new UnsatisfiedLinkError(hint + failures.stream().map(failure -> "; " + failure).reduce("", String::concat));
        failures.forEach(failed::addSuppressed);
        return failed;
    }
}
