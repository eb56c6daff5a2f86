import geolint.Feature;
import geolint.Features;
import geolint.Geolint;
import geolint.Verdict;
import java.io.ByteArrayInputStream;
import java.io.IOException;
import java.io.InputStream;
import java.io.UncheckedIOException;
import java.nio.file.Files;
import java.nio.file.Path;
import java.util.HexFormat;
import java.util.NoSuchElementException;
import java.util.OptionalLong;
import java.util.Random;
import java.util.StringJoiner;
import java.util.stream.Collectors;

/**
 * Asks for the features of the texts of {@code table.py features}, whole and in random pieces, and compares with what is due; then what each
 * call says of null, at the end and after the close.
 *
 * <pre>FeatureRows SEED FILE</pre>
 */
final class FeatureRows {
    private static final byte[] TEXT = "{\"type\":\"FeatureCollection\",\"features\":[{},{}]}".getBytes(java.nio.charset.StandardCharsets.US_ASCII);

    private FeatureRows() {}

    private static String known(OptionalLong place) {
        return place.isPresent() ? Long.toString(place.getAsLong()) : "-";
    }

    private static String line(Feature it) {
        String start = it.index() + " " + it.start() + " " + known(it.end()) + " " + known(it.id()) + " ";
        if (it.verdict() instanceof Verdict.Broken broken)
            return start + broken.code() + " " + broken.place() + " -";
        String noted = ((Verdict.Valid) it.verdict()).warnings().stream().map(w -> w.code() + " " + w.count() + " " + w.first()).collect(Collectors.joining(","));
        return start + "- - " + (noted.isEmpty() ? "-" : noted);
    }

    private static String lines(Features features) {
        StringJoiner lines = new StringJoiner(";");
        features.forEachRemaining(it -> lines.add(line(it)));
        return lines.toString();
    }

    /** A stream that gives no more than it likes. */
    private static InputStream dripping(byte[] text, Random chance) {
        return new ByteArrayInputStream(text) {
            @Override
            public int read(byte[] to, int offset, int length) {
                return super.read(to, offset, Math.min(length, chance.nextInt(40) + 1));
            }
        };
    }

    private static void judge(String name, byte[] text, String wanted, Random chance) throws IOException {
        Verdict whole = Geolint.check(text);
        try (Features features = Geolint.features(text)) {
            Tally.wants(name, lines(features), wanted);
            Tally.wants(name + ": the verdict", features.verdict(), whole);
        }
        try (Features features = Geolint.features(dripping(text, chance))) {
            Tally.wants(name + " in pieces", lines(features), wanted);
            Tally.wants(name + ": the verdict of pieces", features.verdict(), whole);
        }
        try (Features features = Geolint.features(dripping(text, chance))) {
            if (chance.nextBoolean() && features.hasNext())
                Tally.wants(name + ": the first", line(features.next()), wanted.split(";")[0]);
            Tally.wants(name + ": the verdict before the features", features.verdict(), whole);
            Tally.wants(name + ": none are left", features.hasNext(), false);
        }
    }

    private static void misuse() throws IOException {
        Tally.refuses("features of null", NullPointerException.class, "", () -> Geolint.features((byte[]) null));
        Tally.refuses("features of no stream", NullPointerException.class, "text", () -> Geolint.features((InputStream) null));
        Tally.refuses("features under no limits", NullPointerException.class, "limits", () -> Geolint.features(InputStream.nullInputStream(), null));
        Features features = Geolint.features(TEXT);
        Tally.wants("the first", features.next().index(), 0L);
        Tally.wants("asked twice", features.hasNext() && features.hasNext(), true);
        Tally.wants("the second", features.next().index(), 1L);
        Tally.refuses("the third", NoSuchElementException.class, "no more", features::next);
        Verdict verdict = features.verdict();
        features.close();
        features.close();
        Tally.wants("the verdict after the close", features.verdict(), verdict);
        Tally.refuses("another after the close", IllegalStateException.class, "closed", features::hasNext);
        Features closed = Geolint.features(TEXT);
        closed.close();
        Tally.refuses("a verdict after the close", IllegalStateException.class, "closed", closed::verdict);
        try (Features failing = Geolint.features(new InputStream() {
            @Override
            public int read() throws IOException {
                throw new IOException("no disk");
            }
        })) {
            Tally.refuses("a stream that fails", UncheckedIOException.class, "no disk", failing::hasNext);
            Tally.refuses("its verdict", IOException.class, "no disk", failing::verdict);
        }
        // Nobody closes these.
        for (int i = 0; i < 20_000; i++)
            Geolint.features(TEXT).next();
    }

    public static void main(String[] words) throws IOException {
        Random chance = new Random(Long.parseLong(words[0]));
        int texts = 0;
        for (String line : Files.readAllLines(Path.of(words[1]))) {
            String[] word = line.split("\t", -1);
            judge("text " + word[0], HexFormat.of().parseHex(word[1]), word[2], chance);
            texts++;
        }
        misuse();
        System.out.println(texts + " texts");
        Tally.end();
    }
}
