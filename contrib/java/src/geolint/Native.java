package geolint;

import java.io.IOException;
import java.io.InputStream;
import java.nio.ByteBuffer;
import java.nio.file.Files;
import java.nio.file.Path;
import java.util.ArrayList;
import java.util.List;
import java.util.Locale;

/** The calls of the library for C. A linter is the address of its memory; each call trusts it, so it comes from {@link Handle#memory}. */
final class Native {
    /** What a piece shows, and what a text is: the numbers of {@code geolint.h}. */
    static final int REFUSED = 1;
    static final int VALID = 1;
    static final int BROKEN = 2;

    /** How many kinds of warning there are. */
    static final int KINDS = 9;

    /** Where the numbers of a report stand: what it is, the rule or the cause, the place, and of each kind how many and the first place. */
    static final int VERDICT = 0;
    static final int NUMBER = 1;
    static final int PLACE = 2;
    static final int WARNINGS = 3;
    static final int REPORT = WARNINGS + 2 * KINDS;

    /** Where the numbers of a feature stand, before those of its report. A place that there is not is 0. */
    static final int INDEX = 0;
    static final int START = 1;
    static final int END = 2;
    static final int ID = 3;
    static final int OF_FEATURE = 4;
    static final int FINDING = OF_FEATURE + REPORT;

    /** What {@link #nextFeature} answers beside {@link #REFUSED}: it wants more bytes, or has found a feature. */
    static final int OPEN = 0;
    static final int FOUND = 2;

    static {
        load();
    }

    private Native() {}

    /** The memory of a linter that has begun, or 0 where there is none. */
    static native long allocate(int maxDepth, long maxBytes);

    /** Gives back the memory of a linter, of features, of a run or of a join. */
    static native void free(long memory);

    static native int begin(long linter, int maxDepth, long maxBytes);

    static native int feed(long linter, byte[] bytes, int offset, int length);

    static native boolean doomed(long linter);

    static native long offset(long linter);

    /** Ends the linter and writes its report, of {@link #REPORT} numbers. */
    static native void finish(long linter, long[] report);

    /** The memory of a text whose features are reported, which has begun, or 0 where there is none. */
    static native long newFeatures(int maxDepth, long maxBytes);

    /** Takes over some of the bytes, where all that were taken over are used up; answers how many. */
    static native int fill(long features, byte[] bytes, int offset, int length);

    /** Goes on in the bytes that were taken over to the end of the next feature, and writes its {@link #FINDING} numbers. */
    static native int nextFeature(long features, long[] finding);

    /** Ends the text and writes its report. */
    static native void finishFeatures(long features, long[] report);

    /** The memory of the run that begins at a place of a text, and that of a join; 0 where there is none. */
    static native long newRun(int maxDepth, long place);

    static native long newJoin(int maxDepth, long maxBytes);

    /** Feeds a run bytes of a direct buffer, and writes where it ends, how many features it has, and 1 where a broken one follows. */
    static native int feedRun(long run, ByteBuffer bytes, int length, long[] sum);

    /** After how many of the bytes of a direct buffer a run may begin; 0 where there is no such place. */
    static native int likely(ByteBuffer bytes, int length);

    static native int feedJoin(long join, ByteBuffer bytes, int length);

    /** Passes over a run, where a feature has ended right before it. */
    static native boolean passOver(long join, long run);

    static native void finishJoin(long join, long[] report);

    static native String ruleText(int rule);

    static native String causeText(int cause);

    static native String warningText(int kind);

    static native String version();

    /** The verdict that these numbers are. */
    static Verdict verdict(long[] report) {
        int number = (int) report[NUMBER];
        long place = report[PLACE];
        if (report[VERDICT] == VALID)
            return new Verdict.Valid(warnings(report));
        return report[VERDICT] == BROKEN ? new Verdict.Broken(number, place) : new Verdict.NotJson(number, place);
    }

    private static List<Verdict.Warning> warnings(long[] report) {
        List<Verdict.Warning> warnings = new ArrayList<>();
        for (int kind = 1; kind <= KINDS; kind++) {
            int at = WARNINGS + 2 * (kind - 1);
            if (report[at] > 0)
                warnings.add(new Verdict.Warning(kind, report[at], report[at + 1]));
        }
        return warnings;
    }

    /** Loads the library that {@code -Dgeolint.library} names, otherwise the one in the jar, otherwise the system's. */
    private static void load() {
        String named = System.getProperty("geolint.library");
        if (named != null) {
            System.load(Path.of(named).toAbsolutePath().toString());
            return;
        }
        String file = System.mapLibraryName("geolint_java");
        String platform = System.getProperty("os.name").toLowerCase(Locale.ROOT) + "-" + System.getProperty("os.arch");
        try (InputStream library = Native.class.getResourceAsStream("/geolint/" + platform + "/" + file)) {
            if (library == null)
                loadOfSystem(platform);
            else
                loadCopy(library, file);
        } catch (IOException failure) {
            throw linkError("the library in the jar cannot be copied to " + System.getProperty("java.io.tmpdir") + ": " + failure.getMessage());
        }
    }

    private static void loadOfSystem(String platform) {
        try {
            System.loadLibrary("geolint_java");
        } catch (UnsatisfiedLinkError failure) {
            throw linkError("the jar has no library for " + platform + ", and the system has none");
        }
    }

    /** A loader of classes has a copy of its own, which the system keeps when its name is gone. None but its owner reads or writes it. */
    private static void loadCopy(InputStream library, String file) throws IOException {
        Path copy = Files.createTempFile("geolint", file);
        try {
            Files.write(copy, library.readAllBytes());
            System.load(copy.toString());
        } finally {
            Files.deleteIfExists(copy);
        }
    }

    private static UnsatisfiedLinkError linkError(String reason) {
        return new UnsatisfiedLinkError("geolint: " + reason + "; build contrib/java there, and name its library by -Dgeolint.library=PATH");
    }
}
