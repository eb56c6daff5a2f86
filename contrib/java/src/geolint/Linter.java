package geolint;

import java.nio.ByteBuffer;
import java.util.Objects;

/**
 * Checks a text that comes in pieces of any size. It has some 199 KB of memory outside the heap until it is closed; one that is begun
 * again checks the next text in the same memory, which costs less than another linter.
 *
 * <pre>{@code
 * try (Linter linter = new Linter()) {
 *     while (channel.read(buffer) >= 0) {
 *         linter.feed(buffer.flip());
 *         buffer.clear();
 *     }
 *     Verdict verdict = linter.finish();
 * }
 * }</pre>
 *
 * <p>Any thread may call it; calls on one linter wait for each other.
 */
public final class Linter extends Handle {
    /** How much of a buffer outside the heap is copied at a time. */
    private static final int PIECE = 65536;

    private boolean hasEnded;
    private byte[] piece;

    /** Begins before the first byte of a text, under the widest limits. */
    public Linter() {
        this(Limits.WIDEST);
    }

    /**
     * Begins before the first byte of a text.
     *
     * @param limits how deep and how long it may be
     */
    public Linter(Limits limits) {
        super(limits, Native::allocate);
    }

    /**
     * Begins again, before the first byte of another text, whatever was fed.
     *
     * @param limits how deep and how long the text may be
     * @throws IllegalStateException where the linter is closed
     */
    public synchronized void begin(Limits limits) {
        Objects.requireNonNull(limits, "limits");
        Native.begin(memory(), limits.maxDepth(), limits.maxBytes());
        hasEnded = false;
    }

    /** The memory of a linter that has not ended. */
    private long begun() {
        long memory = memory();
        if (hasEnded)
            throw new IllegalStateException("the Linter has ended: begin it again");
        return memory;
    }

    /**
     * Takes the next bytes.
     *
     * @param bytes a piece of the text
     * @return whether the text can go on
     * @throws IllegalStateException after the end, and where the linter is closed
     */
    public Progress feed(byte[] bytes) {
        return feed(bytes, 0, bytes.length);
    }

    /**
     * Takes the next bytes. Other threads may write to the array meanwhile: the verdict is that of the bytes that were read of it.
     *
     * @param bytes an array with a piece of the text in it
     * @param offset where the piece begins
     * @param length how many bytes it has
     * @return whether the text can go on
     * @throws IndexOutOfBoundsException where the array has no such part
     * @throws IllegalStateException after the end, and where the linter is closed
     */
    public synchronized Progress feed(byte[] bytes, int offset, int length) {
        Objects.checkFromIndexSize(offset, length, bytes.length);
        return Native.feed(begun(), bytes, offset, length) == Native.REFUSED ? Progress.REFUSED : Progress.OPEN;
    }

    /**
     * Takes the bytes from the buffer's position to its limit, as a channel does: afterwards the position is the limit.
     *
     * @param bytes a piece of the text, on the heap or not
     * @return whether the text can go on
     * @throws IllegalStateException after the end, and where the linter is closed
     */
    public synchronized Progress feed(ByteBuffer bytes) {
        begun();
        Progress progress = Progress.OPEN;
        if (bytes.hasArray()) {
            progress = feed(bytes.array(), bytes.arrayOffset() + bytes.position(), bytes.remaining());
            bytes.position(bytes.limit());
            return progress;
        }
        if (piece == null)
            piece = new byte[PIECE];
        // A copy: a mapped file that another process cuts short is an error in Java, and the end of the process outside.
        do {
            int length = Math.min(bytes.remaining(), PIECE);
            bytes.get(piece, 0, length);
            progress = feed(piece, 0, length);
        } while (bytes.hasRemaining() && progress == Progress.OPEN);
        bytes.position(bytes.limit());
        return progress;
    }

    /**
     * Whether no text that begins with the bytes fed is valid, as far as that is seen early, so that a host may stop for a yes or no.
     *
     * @return true after a refusal, and once the outermost value shows it; otherwise false
     * @throws IllegalStateException after the end, and where the linter is closed
     */
    public synchronized boolean doomed() {
        return Native.doomed(begun());
    }

    /**
     * How many bytes were taken.
     *
     * @return all that were fed, or once they are refused the place of the refusal
     * @throws IllegalStateException after the end, and where the linter is closed
     */
    public synchronized long offset() {
        return Native.offset(begun());
    }

    /**
     * The verdict of all that was fed, and the end of the linter until it is begun again.
     *
     * @return what the text is
     * @throws IllegalStateException after the end, and where the linter is closed
     */
    public synchronized Verdict finish() {
        long[] report = new long[Native.REPORT];
        Native.finish(begun(), report);
        hasEnded = true;
        return Native.verdict(report);
    }
}
