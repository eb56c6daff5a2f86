import geolint.Geolint;
import geolint.JudgingInputStream;
import geolint.Limits;
import geolint.Linter;
import geolint.Progress;
import geolint.Verdict;
import java.io.ByteArrayInputStream;
import java.io.IOException;
import java.io.InputStream;
import java.nio.ByteBuffer;
import java.nio.file.Files;
import java.nio.file.Path;
import java.util.HexFormat;
import java.util.List;
import java.util.Random;
import java.util.stream.Collectors;

/**
 * Checks the lines of table.py in each way that there is, in random cuts, and compares with the verdict that is due.
 *
 * <pre>Rows SEED FILE</pre>
 */
final class Rows {
    private final Random chance;
    private final Linter kept = new Linter();
    private byte[] text;
    private Limits limits;

    private Rows(long seed) {
        chance = new Random(seed);
    }

    private static String plain(Verdict verdict) {
        if (verdict instanceof Verdict.Valid valid)
            return valid.warnings().stream().map(w -> w.code() + " " + w.count() + " " + w.first()).collect(Collectors.joining(","));
        if (verdict instanceof Verdict.Broken broken)
            return broken.code() + " " + broken.place();
        return ((Verdict.NotJson) verdict).code() + " " + ((Verdict.NotJson) verdict).place();
    }

    /** A length of a piece, of what is left. */
    private int some(int left) {
        return chance.nextInt(Math.min(left, chance.nextInt(3) == 0 ? left : 16) + 1);
    }

    /** A stream that gives no more than it likes. */
    private InputStream dripping() {
        return new ByteArrayInputStream(text) {
            @Override
            public int read(byte[] to, int offset, int length) {
                return super.read(to, offset, Math.max(1, some(length)));
            }
        };
    }

    private ByteBuffer within(ByteBuffer room) {
        room.put((byte) '[').put(text).put((byte) ']');
        return room.position(1).limit(1 + text.length);
    }

    private Verdict cut() {
        kept.begin(limits);
        boolean wasDoomed = false;
        for (int from = 0; from < text.length; ) {
            int length = some(text.length - from);
            Progress progress = chance.nextBoolean() ? kept.feed(text, from, length) : kept.feed(ByteBuffer.wrap(text, from, length).asReadOnlyBuffer());
            from += length;
            Tally.wants("doomed once is doomed for good", wasDoomed && !kept.doomed(), false);
            wasDoomed = kept.doomed();
            Tally.wants("refused is doomed", progress == Progress.REFUSED && !wasDoomed, false);
            Tally.wants("the offset", progress == Progress.OPEN && kept.offset() != from, false);
        }
        Verdict verdict = kept.finish();
        Tally.wants("doomed is not valid", wasDoomed && verdict.isValid(), false);
        return verdict;
    }

    private Verdict through() throws IOException {
        try (JudgingInputStream stream = new JudgingInputStream(dripping(), limits)) {
            int left = text.length / 2;
            while (left > 0) {
                int length = some(left);
                switch (chance.nextInt(3)) {
                    case 0 -> left -= stream.read() < 0 ? 0 : 1;
                    case 1 -> left -= Math.max(0, stream.read(new byte[length + 2], 1, length));
                    default -> left -= (int) stream.skip(length);
                }
            }
            return stream.verdict();
        }
    }

    private void judge(String name, byte[] bytes, Limits allowed, String wanted) throws IOException {
        text = bytes;
        limits = allowed;
        Tally.wants(name + " in an array", plain(Geolint.check(text, limits)), wanted);
        Tally.wants(name + " in a part of a buffer", plain(Geolint.check(within(ByteBuffer.allocate(text.length + 2)), limits)), wanted);
        Tally.wants(name + " outside the heap", plain(Geolint.check(within(ByteBuffer.allocateDirect(text.length + 2)), limits)), wanted);
        Tally.wants(name + " in a stream", plain(Geolint.check(dripping(), limits)), wanted);
        Tally.wants(name + " in pieces", plain(cut()), wanted);
        Tally.wants(name + " passing through", plain(through()), wanted);
    }

    public static void main(String[] words) throws IOException {
        Rows rows = new Rows(Long.parseLong(words[0]));
        List<String> lines = Files.readAllLines(Path.of(words[1]));
        for (String line : lines) {
            String[] word = line.split("\t", -1);
            String wanted = word[3].equals("\\N") ? word[5] : word[3] + " " + word[4];
            rows.judge("text " + word[0], HexFormat.of().parseHex(word[1]), new Limits(256, Long.parseLong(word[2])), wanted);
        }
        System.out.println(lines.size() + " texts");
        Tally.end();
    }
}
