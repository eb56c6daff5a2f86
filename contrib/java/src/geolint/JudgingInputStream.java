package geolint;

import java.io.FilterInputStream;
import java.io.IOException;
import java.io.InputStream;
import java.util.Objects;

/**
 * Checks what is read through it, so that a text is parsed or stored and checked in one pass.
 *
 * <pre>{@code
 * try (JudgingInputStream body = new JudgingInputStream(request.getInputStream())) {
 *     Files.copy(body, path);
 *     if (!body.verdict().isValid())
 *         Files.delete(path);
 * }
 * }</pre>
 *
 * <p>What it gives is what the stream beneath gives, also of a text that is refused. What is skipped is read and checked, and there is no
 * going back to a mark. To read single bytes put a {@link java.io.BufferedInputStream} over it.
 */
public final class JudgingInputStream extends FilterInputStream {
    private final Linter linter;
    private Verdict verdict;

    /**
     * Checks under the widest limits.
     *
     * @param in the stream that gives the text
     */
    public JudgingInputStream(InputStream in) {
        this(in, Limits.WIDEST);
    }

    /**
     * Checks under limits; what lies beyond them is read all the same.
     *
     * @param in the stream that gives the text
     * @param limits how deep and how long the text may be
     */
    public JudgingInputStream(InputStream in, Limits limits) {
        super(Objects.requireNonNull(in, "in"));
        linter = new Linter(limits);
    }

    /**
     * Reads what has not been read yet, and gives the verdict of all that the stream gave: this is its end then. A second call gives
     * the verdict again, also after the stream was closed.
     *
     * @return what the text is
     * @throws IOException where the stream cannot be read, or was closed before
     */
    public Verdict verdict() throws IOException {
        if (verdict == null) {
            byte[] piece = new byte[65536];
            while (read(piece) >= 0)
                continue;
            verdict = end();
        }
        return verdict;
    }

    private Verdict end() throws IOException {
        try {
            return linter.finish();
        } catch (IllegalStateException closed) {
            throw new IOException("the stream is closed", closed);
        }
    }

    private void judge(byte[] bytes, int offset, int length) throws IOException {
        try {
            linter.feed(bytes, offset, length);
        } catch (IllegalStateException closed) {
            throw new IOException("the stream is closed", closed);
        }
    }

    @Override
    public int read() throws IOException {
        byte[] one = new byte[1];
        int length = read(one, 0, 1);
        return length < 0 ? -1 : one[0] & 0xff;
    }

    @Override
    public int read(byte[] bytes, int offset, int length) throws IOException {
        if (verdict != null)
            return -1;
        int got = super.read(bytes, offset, length);
        if (got > 0)
            judge(bytes, offset, got);
        return got;
    }

    @Override
    public long skip(long count) throws IOException {
        byte[] piece = new byte[(int) Math.max(0, Math.min(count, 8192))];
        long left = count;
        while (left > 0) {
            int got = read(piece, 0, (int) Math.min(left, piece.length));
            if (got < 0)
                break;
            left -= got;
        }
        return Math.max(0, count - Math.max(0, left));
    }

    @Override
    public boolean markSupported() {
        return false;
    }

    @Override
    public void mark(int limit) {
        // There is no going back.
    }

    @Override
    public void reset() throws IOException {
        throw new IOException("there is no going back in a stream that is checked");
    }

    @Override
    public void close() throws IOException {
        linter.close();
        super.close();
    }
}
