package io.github.zuphinka;

import java.nio.charset.StandardCharsets;
import java.nio.file.Path;

/**
 * Refuses an allocation of the native library, which is linked with tests/refuse_java.c for that. One thread at a time calls that library. It also
 * changes the current folder of the process, which Java cannot.
 */
public final class Refusal {
    static {
        NativeLibrary.load();
    }

    private Refusal() {}

    /** Refuses the allocation with this number, counted from 1 and from now on; none if it is 0. */
    public static native void refuse(long number);

    /** Returns whether the allocation was not yet asked for. */
    public static native boolean isPending();

    /** Returns how often the core was asked whether an object is lent. */
    public static native long questions();

    /** Changes the current folder to one whose path has no characters but those of ASCII, and returns whether that was possible. */
    public static boolean enter(Path folder) {
        return enter((folder + "\0").getBytes(StandardCharsets.US_ASCII));
    }

    private static native boolean enter(byte[] folder);
}
