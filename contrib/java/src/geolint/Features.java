package geolint;

import java.io.IOException;
import java.io.InputStream;
import java.io.UncheckedIOException;
import java.util.Iterator;
import java.util.NoSuchElementException;
import java.util.Objects;
import java.util.OptionalLong;

/**
 * The features of a text, one at a time, as they are read: a text of any size takes some 300 KB, four fifths of them outside the heap, until this is closed; the stream stays open.
 *
 * <pre>{@code
 * try (Features features = Geolint.features(Files.newInputStream(path))) {
 *     features.forEachRemaining(feature -> {
 *         if (feature.verdict() instanceof Verdict.Broken broken)
 *             log("feature " + feature.index() + ": " + broken);
 *     });
 *     System.out.println(features.verdict());
 * }
 * }</pre>
 *
 * <p>Of a text that is not JSON, the features before the refused byte are reported, and {@link #verdict} says the rest. Any thread may call it;
 * calls on one wait for each other.
 */
public final class Features extends Handle implements Iterator<Feature> {
    private static final int PIECE = 65536;

    private final InputStream text;
    private final byte[] piece = new byte[PIECE];
    private final long[] finding = new long[Native.FINDING];
    private int from;
    private int to;
    private boolean isOpen = true;
    private boolean isReading;
    private Feature next;
    private Verdict verdict;

    Features(InputStream text, Limits limits) {
        super(limits, Native::newFeatures);
        this.text = Objects.requireNonNull(text, "text");
    }

    /** Reads another piece. The stream is the host's, and may call this: it may close it, and nothing more. */
    private void read() throws IOException {
        isReading = true;
        try {
            int length = text.read(piece);
            isOpen = length >= 0;
            from = 0;
            to = Math.max(0, length);
        } finally {
            isReading = false;
        }
    }

    /** Hands over what is left of the piece, or of another. */
    private void fill() throws IOException {
        if (from == to)
            read();
        from += Native.fill(memory(), piece, from, to - from);
    }

    private void seek() throws IOException {
        memory();
        if (isReading)
            throw new IllegalStateException("the Features is asked by the stream that it reads");
        while (next == null && isOpen) {
            switch (Native.nextFeature(memory(), finding)) {
                case Native.FOUND -> next = feature();
                case Native.REFUSED -> isOpen = false;
                default -> fill();
            }
        }
    }

    private Feature feature() {
        long[] report = new long[Native.REPORT];
        System.arraycopy(finding, Native.OF_FEATURE, report, 0, Native.REPORT);
        return new Feature(finding[Native.INDEX], finding[Native.START], known(finding[Native.END]), known(finding[Native.ID]), Native.verdict(report));
    }

    /** A place that is 0 where there is none. */
    private static OptionalLong known(long place) {
        return place == 0 ? OptionalLong.empty() : OptionalLong.of(place);
    }

    /**
     * Whether there is another feature: it reads up to its end.
     *
     * @return false at the end of the text, and where it is refused
     * @throws UncheckedIOException where the stream cannot be read
     * @throws IllegalStateException after the close, also by the stream as it is read, and where that calls this
     */
    @Override
    public synchronized boolean hasNext() {
        try {
            seek();
        } catch (IOException failure) {
            throw new UncheckedIOException(failure);
        }
        return next != null;
    }

    /**
     * The next feature.
     *
     * @return what is found in it
     * @throws NoSuchElementException where there is none
     * @throws UncheckedIOException where the stream cannot be read
     * @throws IllegalStateException after the close, also by the stream as it is read, and where that calls this
     */
    @Override
    public synchronized Feature next() {
        if (!hasNext())
            throw new NoSuchElementException("the text has no more features");
        Feature feature = next;
        next = null;
        return feature;
    }

    /**
     * What the text is as a whole. It reads what has not been read yet, whose features are passed over. A second call gives the verdict
     * again, also after the close.
     *
     * @return the verdict of {@link Geolint#check(InputStream)}
     * @throws IOException where the stream cannot be read
     * @throws IllegalStateException as {@link #hasNext}, where it was not asked for before
     */
    public synchronized Verdict verdict() throws IOException {
        if (verdict == null) {
            do {
                next = null;
                seek();
            } while (next != null);
            long[] report = new long[Native.REPORT];
            Native.finishFeatures(memory(), report);
            verdict = Native.verdict(report);
        }
        return verdict;
    }
}
