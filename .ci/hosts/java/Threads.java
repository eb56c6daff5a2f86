import geolint.Geolint;
import geolint.Limits;
import geolint.Linter;
import geolint.Verdict;
import java.io.IOException;
import java.nio.file.Files;
import java.nio.file.Path;
import java.util.ArrayList;
import java.util.List;
import java.util.Random;

/**
 * Eight threads: each checks the files in random cuts by linters of its own and by {@link Geolint#check}, all of them use, end and close
 * one linter against each other, and one writes to an array that the others check.
 *
 * <pre>Threads SECONDS FILE..</pre>
 */
final class Threads {
    private static final int COUNT = 8;
    private static final byte[] CHANGING = new byte[100_000];
    private static volatile Linter shared = new Linter();

    private Threads() {}

    private static Verdict cut(Linter linter, byte[] text, Random chance) {
        linter.begin(Limits.WIDEST);
        for (int from = 0; from < text.length; ) {
            int length = chance.nextInt(text.length - from) + 1;
            linter.feed(text, from, length);
            from += length;
        }
        return linter.finish();
    }

    /** Whatever one linter says in such a use, it says it: an answer, or that it has ended or is closed. */
    private static void disturb(byte[] text, Random chance) {
        Linter linter = shared;
        try {
            switch (chance.nextInt(8)) {
                case 0 -> linter.finish();
                case 1 -> linter.begin(Limits.WIDEST);
                case 2 -> linter.doomed();
                case 3 -> linter.offset();
                case 4 -> {
                    if (chance.nextInt(50) == 0) {
                        linter.close();
                        shared = new Linter();
                    }
                }
                default -> linter.feed(text, 0, chance.nextInt(text.length));
            }
        } catch (IllegalStateException ended) {
            // As said.
        }
    }

    private static void run(int number, long end, List<byte[]> texts, List<Verdict> wanted) {
        Random chance = new Random(number);
        try (Linter own = new Linter()) {
            while (System.nanoTime() < end) {
                int at = chance.nextInt(texts.size());
                Tally.wants("a linter of its own", cut(own, texts.get(at), chance), wanted.get(at));
                Tally.wants("a check", Geolint.check(texts.get(at)), wanted.get(at));
                disturb(texts.get(at), chance);
                CHANGING[chance.nextInt(CHANGING.length)] = texts.get(at)[0];
                Geolint.check(CHANGING);
            }
        }
    }

    public static void main(String[] words) throws IOException, InterruptedException {
        List<byte[]> texts = new ArrayList<>();
        for (int i = 1; i < words.length; i++)
            texts.add(Files.readAllBytes(Path.of(words[i])));
        List<Verdict> wanted = texts.stream().map(Geolint::check).toList();
        long end = System.nanoTime() + Long.parseLong(words[0]) * 1_000_000_000L;
        List<Thread> threads = new ArrayList<>();
        for (int number = 0; number < COUNT; number++) {
            int seed = number;
            Thread thread = new Thread(() -> run(seed, end, texts, wanted));
            thread.setUncaughtExceptionHandler((at, thrown) -> Tally.wants("thread " + seed, thrown, null));
            threads.add(thread);
            thread.start();
        }
        for (Thread thread : threads)
            thread.join();
        Tally.end();
    }
}
