import geolint.Geolint;
import geolint.Linter;
import geolint.Progress;
import geolint.Verdict;
import java.io.IOException;
import java.io.InputStream;
import java.nio.ByteBuffer;
import java.nio.charset.StandardCharsets;
import java.nio.file.Files;
import java.nio.file.Path;
import java.util.Arrays;

/** A text of 5 GB in a stream, one of 1 GB outside the heap, and linters that nobody closes; in a heap of 64 MB. */
final class Huge {
    private static final byte[] SHORT = "{\"type\":\"Point\",\"coordinates\":[1]}".getBytes(StandardCharsets.US_ASCII);
    private static final long SPACES = 5_000_000_000L;

    private Huge() {}

    /** As many spaces as asked for, and then a text. */
    private static final class Spaces extends InputStream {
        private long left = SPACES;
        private int next;

        @Override
        public int read() {
            return left-- > 0 ? ' ' : next < SHORT.length ? SHORT[next++] : -1;
        }

        @Override
        public int read(byte[] to, int offset, int length) {
            int count = (int) Math.min(left, length);
            if (count > 0) {
                Arrays.fill(to, offset, offset + count, (byte) ' ');
                left -= count;
                return count;
            }
            count = Math.min(SHORT.length - next, length);
            System.arraycopy(SHORT, next, to, offset, count);
            next += count;
            return count > 0 || length == 0 ? count : -1;
        }
    }

    private static long resident() throws IOException {
        String line = Files.readAllLines(Path.of("/proc/self/status")).stream().filter(it -> it.startsWith("VmRSS:")).findFirst().orElseThrow();
        return Long.parseLong(line.replaceAll("\\D", ""));
    }

    /** 20,000 linters take 4 GB; the collector finds those that are lost. */
    private static void lose() throws IOException, InterruptedException {
        long before = resident();
        for (int number = 1; number <= 20_000; number++) {
            Tally.wants("a linter", new Linter().feed(SHORT), Progress.OPEN);
            if (number % 1000 == 0) {
                System.gc();
                Thread.sleep(20);
            }
        }
        Tally.wants("linters that are lost give their memory back", resident() - before < 1_000_000, true);
    }

    public static void main(String[] words) throws IOException, InterruptedException {
        Tally.wants("a stream of 5 GB", Geolint.check(new Spaces()), new Verdict.Broken(12, SPACES + 30));
        ByteBuffer buffer = ByteBuffer.allocateDirect(1_000_000_000);
        ByteBuffer spaces = ByteBuffer.wrap(" ".repeat(1_000_000).getBytes(StandardCharsets.US_ASCII));
        while (buffer.hasRemaining())
            buffer.put(spaces.duplicate().limit(Math.min(spaces.limit(), buffer.remaining())));
        Tally.wants("a buffer of 1 GB", Geolint.check(buffer.flip()), new Verdict.NotJson(2, 1_000_000_000));
        lose();
        Tally.end();
    }
}
