package geolint;

import java.io.ByteArrayInputStream;
import java.io.IOException;
import java.io.InputStream;
import java.nio.ByteBuffer;
import java.nio.file.Path;
import java.util.Objects;
import java.util.concurrent.ArrayBlockingQueue;

/**
 * Is a text GeoJSON (RFC 7946), and otherwise where and why not.
 *
 * <pre>{@code
 * Verdict verdict = Geolint.check(Files.readAllBytes(path));
 * if (verdict instanceof Verdict.Broken broken)
 *     System.out.println(broken.code() + " at byte " + broken.place() + ": " + broken.message());
 * }</pre>
 *
 * <p>Any thread may call it. A text that comes in pieces is checked by a {@link Linter}, and one that something else reads by a
 * {@link JudgingInputStream}. {@link #features} reports what is found in each feature.
 */
public final class Geolint {
    private static final int PIECE = 65536;
    /** Linters that no call uses: one that is begun again costs little, while a new one writes 199 KB. */
    private static final ArrayBlockingQueue<Linter> SPARE = new ArrayBlockingQueue<>(Runtime.getRuntime().availableProcessors());

    private Geolint() {}

    /**
     * Checks a text in memory, under the widest limits.
     *
     * @param text its bytes
     * @return what it is
     */
    public static Verdict check(byte[] text) {
        return check(text, Limits.WIDEST);
    }

    /**
     * Checks a text in memory.
     *
     * @param text its bytes
     * @param limits how deep and how long it may be
     * @return what it is
     */
    public static Verdict check(byte[] text, Limits limits) {
        return check(ByteBuffer.wrap(text), limits);
    }

    /**
     * Checks a text in a buffer, under the widest limits.
     *
     * @param text its bytes, from the position to the limit, on the heap or not; the buffer stays as it is
     * @return what it is
     */
    public static Verdict check(ByteBuffer text) {
        return check(text, Limits.WIDEST);
    }

    /**
     * Checks a text in a buffer.
     *
     * @param text its bytes, from the position to the limit, on the heap or not; the buffer stays as it is
     * @param limits how deep and how long it may be
     * @return what it is
     */
    public static Verdict check(ByteBuffer text, Limits limits) {
        ByteBuffer bytes = text.duplicate();
        Linter linter = take(limits);
        try {
            linter.feed(bytes);
            return linter.finish();
        } finally {
            give(linter);
        }
    }

    /**
     * Checks what a stream gives, under the widest limits, and reads no further than the piece that is refused. It stays open.
     *
     * @param text a stream of its bytes
     * @return what it is
     * @throws IOException where the stream cannot be read
     */
    public static Verdict check(InputStream text) throws IOException {
        return check(text, Limits.WIDEST);
    }

    /**
     * Checks what a stream gives, and reads no further than the piece that is refused. It stays open.
     *
     * @param text a stream of its bytes
     * @param limits how deep and how long it may be
     * @return what it is
     * @throws IOException where the stream cannot be read
     */
    public static Verdict check(InputStream text, Limits limits) throws IOException {
        Objects.requireNonNull(text, "text");
        Linter linter = take(limits);
        try {
            byte[] piece = new byte[PIECE];
            Progress progress = Progress.OPEN;
            for (int length; progress == Progress.OPEN && (length = text.read(piece)) >= 0; )
                progress = linter.feed(piece, 0, length);
            return linter.finish();
        } finally {
            give(linter);
        }
    }

    /**
     * Checks a file by several threads, which pays where it is a FeatureCollection of tens of megabytes. The verdict is that of one reading,
     * whatever the file is.
     *
     * @param file where it is
     * @param jobs how many threads check it, 1 or more
     * @param limits how deep and how long it may be
     * @return what it is
     * @throws IOException where it cannot be read, or changed while it was read
     */
    public static Verdict check(Path file, int jobs, Limits limits) throws IOException {
        return Parts.check(file, jobs, limits, Parts.LEAST);
    }

    /**
     * The features of a text that a stream gives, under the widest limits.
     *
     * @param text a stream of its bytes, which stays open
     * @return what is found in each, one at a time; to be closed
     */
    public static Features features(InputStream text) {
        return features(text, Limits.WIDEST);
    }

    /**
     * The features of a text that a stream gives.
     *
     * @param text a stream of its bytes, which stays open
     * @param limits how deep and how long it may be
     * @return what is found in each, one at a time; to be closed
     */
    public static Features features(InputStream text, Limits limits) {
        return new Features(text, limits);
    }

    /**
     * The features of a text in memory, under the widest limits.
     *
     * @param text its bytes
     * @return what is found in each, one at a time; to be closed
     */
    public static Features features(byte[] text) {
        return features(new ByteArrayInputStream(text));
    }

    /**
     * The version of the library.
     *
     * @return as {@code 0.1.0}
     */
    public static String version() {
        return Native.version();
    }

    /**
     * What this jar was built from.
     *
     * @return the version, and of a jar that {@code make dist} made the commit and the proof kit
     */
    public static Build build() {
        return Build.read();
    }

    private static Linter take(Limits limits) {
        Linter linter = SPARE.poll();
        if (linter == null)
            return new Linter(limits);
        linter.begin(limits);
        return linter;
    }

    private static void give(Linter linter) {
        if (!SPARE.offer(linter))
            linter.close();
    }
}
