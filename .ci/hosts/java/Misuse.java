import geolint.Build;
import geolint.Geolint;
import geolint.JudgingInputStream;
import geolint.Limits;
import geolint.Linter;
import geolint.Progress;
import geolint.Verdict;
import java.io.ByteArrayInputStream;
import java.io.ByteArrayOutputStream;
import java.io.IOException;
import java.io.InputStream;
import java.nio.ByteBuffer;
import java.nio.MappedByteBuffer;
import java.nio.channels.FileChannel;
import java.nio.charset.StandardCharsets;
import java.nio.file.Files;
import java.nio.file.Path;
import java.nio.file.StandardOpenOption;
import java.util.List;
import java.util.Optional;

/** What each call says of null, of lengths that are not there, after the end and after the close. */
final class Misuse {
    private static final byte[] POINT = "{\"type\":\"Point\",\"coordinates\":[1,2]}".getBytes(StandardCharsets.US_ASCII);
    private static final Verdict VALID = new Verdict.Valid(List.of());

    private Misuse() {}

    private static void ofNull() {
        Class<NullPointerException> error = NullPointerException.class;
        Tally.refuses("check of null", error, "", () -> Geolint.check((byte[]) null));
        Tally.refuses("check of no buffer", error, "", () -> Geolint.check((ByteBuffer) null));
        Tally.refuses("check of no stream", error, "text", () -> Geolint.check((InputStream) null));
        Tally.refuses("check under no limits", error, "limits", () -> Geolint.check(POINT, null));
        Tally.refuses("a linter under no limits", error, "limits", () -> new Linter(null));
        Tally.refuses("a stream over nothing", error, "in", () -> new JudgingInputStream(null));
        Tally.refuses("a stream under no limits", error, "limits", () -> new JudgingInputStream(InputStream.nullInputStream(), null));
        try (Linter linter = new Linter()) {
            Tally.refuses("feed of null", error, "", () -> linter.feed((byte[]) null));
            Tally.refuses("feed of no array", error, "", () -> linter.feed(null, 0, 0));
            Tally.refuses("feed of no buffer", error, "", () -> linter.feed((ByteBuffer) null));
            Tally.refuses("begin under no limits", error, "limits", () -> begin(linter, null));
            linter.feed(POINT);
            Tally.wants("a linter after these", linter.finish(), VALID);
        }
    }

    private static Object begin(Linter linter, Limits limits) {
        linter.begin(limits);
        return "begun";
    }

    private static void ofLengths() {
        Class<IndexOutOfBoundsException> error = IndexOutOfBoundsException.class;
        int most = Integer.MAX_VALUE;
        try (Linter linter = new Linter()) {
            for (int[] part : new int[][] {{0, -1}, {-1, 1}, {0, 37}, {36, 1}, {37, 0}, {most, most}, {1, most}, {Integer.MIN_VALUE, most}, {-1, 0}})
                Tally.refuses("feed of " + part[1] + " bytes at " + part[0], error, "", () -> linter.feed(POINT, part[0], part[1]));
            Tally.wants("feed of no bytes at the end", linter.feed(POINT, 36, 0), Progress.OPEN);
            Tally.wants("feed of no bytes", linter.feed(new byte[0]), Progress.OPEN);
            Tally.wants("feed of no bytes outside the heap", linter.feed(ByteBuffer.allocateDirect(0)), Progress.OPEN);
            Tally.wants("what they left", linter.offset(), 0L);
            linter.feed(POINT);
            Tally.wants("a linter after these", linter.finish(), VALID);
        }
        for (int[] depth : new int[][] {{0, 1}, {257, 1}, {-1, 1}, {1, 0}, {1, -1}, {Integer.MIN_VALUE, 9}})
            Tally.refuses("limits", IllegalArgumentException.class, "from 1 to 256", () -> new Limits(depth[0], depth[1]));
        Tally.refuses("too many bytes", IllegalArgumentException.class, "2^60", () -> new Limits(1, (1L << 60) + 1));
        Tally.wants("ten bytes", Geolint.check(POINT, new Limits(256, 10)), new Verdict.NotJson(4, 10));
        Tally.wants("one level", Geolint.check(POINT, new Limits(1, 99)), new Verdict.NotJson(3, 30));
        Tally.wants("no bytes", Geolint.check(new byte[0]), new Verdict.NotJson(2, 0));
        Tally.wants("texts of numbers that there are not", new Verdict.Broken(-1, 0).message() + new Verdict.NotJson(9, 0).message() + new Verdict.Warning(0, 1, 2).message(), "");
    }

    private static void afterTheEnd() {
        Class<IllegalStateException> error = IllegalStateException.class;
        Linter linter = new Linter();
        linter.feed(POINT);
        linter.finish();
        for (String state : new String[] {"ended", "closed"}) {
            Tally.refuses("feed", error, state, () -> linter.feed(POINT));
            Tally.refuses("feed of a buffer", error, state, () -> linter.feed(ByteBuffer.wrap(POINT)));
            Tally.refuses("feed of a buffer outside the heap", error, state, () -> linter.feed(ByteBuffer.allocateDirect(9)));
            Tally.refuses("doomed", error, state, linter::doomed);
            Tally.refuses("offset", error, state, linter::offset);
            Tally.refuses("finish", error, state, linter::finish);
            if (state.equals("ended")) {
                linter.begin(Limits.WIDEST);
                linter.feed(POINT);
                Tally.wants("begun again", linter.finish(), VALID);
                linter.close();
                linter.close();
            }
        }
        Tally.refuses("begin", error, "closed", () -> begin(linter, Limits.WIDEST));
    }

    private static void ofBuffers() throws IOException {
        ByteBuffer buffer = ByteBuffer.wrap(POINT);
        Tally.wants("a buffer", Geolint.check(buffer), VALID);
        Tally.wants("which stays as it is", buffer.remaining(), POINT.length);
        try (Linter linter = new Linter()) {
            linter.feed(buffer);
            Tally.wants("one that is fed has none left", buffer.remaining(), 0);
            linter.begin(Limits.WIDEST);
            ByteBuffer refused = ByteBuffer.allocateDirect(200_000);
            Tally.wants("one that is refused", linter.feed(refused), Progress.REFUSED);
            Tally.wants("it has none left either", refused.remaining(), 0);
        }
        // A mapped file that is cut short while it is checked is an error, and no end of the process.
        Path path = Files.createTempFile("geolint", "mapped");
        try (FileChannel file = FileChannel.open(path, StandardOpenOption.READ, StandardOpenOption.WRITE, StandardOpenOption.DELETE_ON_CLOSE)) {
            file.write(ByteBuffer.wrap(" ".repeat(1 << 20).getBytes(StandardCharsets.US_ASCII)));
            MappedByteBuffer mapped = file.map(FileChannel.MapMode.READ_ONLY, 0, 1 << 20);
            Tally.wants("a mapped file", Geolint.check(mapped), new Verdict.NotJson(2, 1 << 20));
            file.truncate(0);
            try {
                Geolint.check(mapped);
            } catch (InternalError fault) {
                // What the JVM says of such a read; it may also give zeros.
            }
            Tally.wants("after that", Geolint.check(POINT), VALID);
        }
    }

    private static void ofStreams() throws IOException {
        ByteArrayInputStream closed = new ByteArrayInputStream(POINT);
        JudgingInputStream stream = new JudgingInputStream(closed);
        Tally.wants("a mark", stream.markSupported(), false);
        stream.mark(10);
        Tally.refuses("reset", IOException.class, "no going back", () -> {
            stream.reset();
            return "reset";
        });
        Tally.wants("skip of no bytes", stream.skip(-5) + stream.skip(0), 0L);
        Tally.wants("no room", stream.read(new byte[3], 1, 0), 0);
        Tally.refuses("a length that is not there", IndexOutOfBoundsException.class, "", () -> stream.read(new byte[3], 1, 9));
        Tally.wants("a byte", stream.read(), (int) '{');
        stream.close();
        stream.close();
        Tally.refuses("read after the close", IOException.class, "closed", stream::read);
        Tally.refuses("verdict after the close", IOException.class, "closed", stream::verdict);

        JudgingInputStream whole = new JudgingInputStream(new ByteArrayInputStream(POINT));
        ByteArrayOutputStream stored = new ByteArrayOutputStream();
        whole.transferTo(stored);
        Tally.wants("what is stored", stored.toString(StandardCharsets.US_ASCII), new String(POINT, StandardCharsets.US_ASCII));
        Tally.wants("its verdict", whole.verdict(), VALID);
        Tally.wants("what comes after it", whole.read(), -1);
        whole.close();
        Tally.wants("its verdict after the close", whole.verdict(), VALID);
        Tally.wants("skip beyond the end", new JudgingInputStream(new ByteArrayInputStream(POINT)).skip(Long.MAX_VALUE), (long) POINT.length);

        InputStream failing = new InputStream() {
            @Override
            public int read() throws IOException {
                throw new IOException("the line is cut");
            }
        };
        Tally.refuses("a stream that fails", IOException.class, "cut", () -> Geolint.check(failing));
        Tally.refuses("a stream that fails, checked", IOException.class, "cut", () -> new JudgingInputStream(failing).verdict());
        InputStream lying = new InputStream() {
            @Override
            public int read() {
                return 7;
            }

            @Override
            public int read(byte[] to, int offset, int length) {
                return length + 1;
            }
        };
        Tally.refuses("a stream that says it gave more than there is room", IndexOutOfBoundsException.class, "", () -> Geolint.check(lying));
        Tally.wants("a text after these", Geolint.check(POINT), VALID);
    }

    public static void main(String[] words) throws IOException {
        ofNull();
        ofLengths();
        afterTheEnd();
        ofBuffers();
        ofStreams();
        Tally.wants("the version", Geolint.version().split("\\.").length, 3);
        Tally.wants("what no package says", Geolint.build(), new Build(Geolint.version(), Optional.empty(), Optional.empty()));
        Tally.end();
    }
}
