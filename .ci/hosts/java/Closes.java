import geolint.Features;
import geolint.Geolint;
import geolint.JudgingInputStream;
import geolint.Verdict;
import java.io.ByteArrayInputStream;
import java.io.FilterInputStream;
import java.io.IOException;
import java.io.InputStream;
import java.nio.charset.StandardCharsets;
import java.util.List;
import java.util.concurrent.Callable;
import java.util.function.Function;

/** What a stream does to that which reads it: closes it, on its thread or on another, asks it, fails once, and gives nothing once. */
final class Closes {
    private static final byte[] TEXT = "{\"type\":\"FeatureCollection\",\"features\":[{},{}]}".getBytes(StandardCharsets.US_ASCII);
    private static final Verdict WHOLE = Geolint.check(TEXT);
    private static final List<Function<Features, Callable<?>>> CALLS = List.of(it -> it::hasNext, it -> it::next, it -> it::verdict);
    private static final int NOTHING = 7;

    private Closes() {}

    /** Gives the text by ten bytes, and between the first ten and the next this happens. */
    private static InputStream pieces(Callable<Integer> between) {
        return new FilterInputStream(new ByteArrayInputStream(TEXT)) {
            private int reads;

            @Override
            public int read(byte[] to, int offset, int length) throws IOException {
                try {
                    if (reads++ == 1 && between.call() == NOTHING)
                        return 0;
                } catch (IOException failure) {
                    throw failure;
                } catch (Exception other) {
                    throw new AssertionError(other);
                }
                return super.read(to, offset, Math.min(length, 10));
            }
        };
    }

    private static void closedByItsStream(Function<Features, Callable<?>> call) {
        Features[] it = new Features[1];
        it[0] = Geolint.features(pieces(() -> {
            it[0].close();
            return 0;
        }));
        Tally.refuses("a call that its stream closes", IllegalStateException.class, "is closed", call.apply(it[0]));
        Tally.refuses("one after it", IllegalStateException.class, "is closed", call.apply(it[0]));
    }

    private static void closedMeanwhile() throws IOException, InterruptedException {
        Features[] it = new Features[1];
        Thread closing = new Thread(() -> it[0].close());
        it[0] = Geolint.features(pieces(() -> {
            closing.start();
            while (closing.getState() != Thread.State.BLOCKED)
                Thread.onSpinWait();
            return 0;
        }));
        Tally.wants("a call that another thread waits for", it[0].next().index(), 0L);
        closing.join();
        Tally.refuses("one after the close", IllegalStateException.class, "is closed", it[0]::hasNext);
    }

    private static void askedByItsStream(Function<Features, Callable<?>> call) throws IOException {
        Features[] it = new Features[1];
        it[0] = Geolint.features(pieces(() -> {
            Tally.refuses("a call by its stream", IllegalStateException.class, "by the stream that it reads", call.apply(it[0]));
            return 0;
        }));
        try (Features features = it[0]) {
            Tally.wants("the first feature after it", features.next().index(), 0L);
            Tally.wants("the verdict after it", features.verdict(), WHOLE);
        }
    }

    private static void readAgain() throws IOException {
        try (Features features = Geolint.features(pieces(() -> {
            throw new IOException("try again");
        }))) {
            Tally.refuses("a read that fails once", IOException.class, "try again", features::verdict);
            Tally.wants("the verdict when it is tried again", features.verdict(), WHOLE);
        }
        try (Features features = Geolint.features(pieces(() -> NOTHING))) {
            Tally.wants("the verdict where a read gives nothing", features.verdict(), WHOLE);
        }
        Tally.wants("a check where a read gives nothing", Geolint.check(pieces(() -> NOTHING)), WHOLE);
    }

    private static void judgingClosed() {
        JudgingInputStream[] it = new JudgingInputStream[1];
        it[0] = new JudgingInputStream(pieces(() -> {
            it[0].close();
            return 0;
        }));
        Tally.refuses("a stream that the one beneath closes", IOException.class, "is closed", it[0]::readAllBytes);
        Tally.refuses("its verdict", IOException.class, "is closed", it[0]::verdict);
    }

    public static void main(String[] words) throws IOException, InterruptedException {
        for (int round = 0; round < 1000; round++)
            CALLS.forEach(Closes::closedByItsStream);
        closedMeanwhile();
        for (Function<Features, Callable<?>> call : CALLS)
            askedByItsStream(call);
        readAgain();
        judgingClosed();
        Tally.end();
    }
}
