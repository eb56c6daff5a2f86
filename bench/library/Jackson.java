import com.fasterxml.jackson.core.JsonFactory;
import com.fasterxml.jackson.core.JsonParser;
import geolint.Geolint;
import java.io.IOException;
import java.lang.management.ManagementFactory;
import java.lang.management.ThreadMXBean;
import java.nio.charset.StandardCharsets;
import java.nio.file.Files;
import java.nio.file.Path;

/**
 * Checks files in memory beside Jackson, which walks their tokens and knows no GeoJSON: the processor time of the best of some
 * rounds in turn.
 *
 * <pre>java -Xbatch -cp geolint.jar:jackson-core.jar bench/library/Jackson.java ROUNDS FILE..</pre>
 */
final class Jackson {
    private static final JsonFactory FACTORY = new JsonFactory();
    private static final ThreadMXBean CLOCK = ManagementFactory.getThreadMXBean();

    private Jackson() {}

    private interface Reading {
        int read(byte[] text) throws IOException;
    }

    private static int walk(byte[] text) throws IOException {
        int tokens = 0;
        try (JsonParser parser = FACTORY.createParser(text)) {
            while (parser.nextToken() != null)
                tokens++;
        }
        return tokens;
    }

    private static int judge(byte[] text) {
        return Geolint.check(text).isValid() ? 1 : 0;
    }

    private static double nanoseconds(Reading reading, byte[] text, int times) throws IOException {
        long start = CLOCK.getCurrentThreadCpuTime();
        for (int time = 0; time < times; time++)
            if (reading.read(text) == 0)
                throw new IOException("a text that is not valid");
        return (double) (CLOCK.getCurrentThreadCpuTime() - start) / times;
    }

    private static void compare(String name, byte[] text, int rounds, int times) throws IOException {
        double judged = Double.MAX_VALUE;
        double walked = Double.MAX_VALUE;
        for (int round = 0; round < rounds; round++) {
            judged = Math.min(judged, nanoseconds(Jackson::judge, text, times));
            walked = Math.min(walked, nanoseconds(Jackson::walk, text, times));
        }
        System.out.printf("%s: geolint %.0f MB/s, Jackson %.0f MB/s, so %.1f times its speed%n", name, text.length * 1e3 / judged, text.length * 1e3 / walked, walked / judged);
    }

    public static void main(String[] words) throws IOException {
        int rounds = Integer.parseInt(words[0]);
        byte[] point = "{\"type\":\"Feature\",\"geometry\":{\"type\":\"Point\",\"coordinates\":[17.125,48.25]},\"properties\":{\"id\":7,\"x\":1}}".getBytes(StandardCharsets.US_ASCII);
        compare("a text of " + point.length + " bytes", point, rounds, 200_000);
        for (int i = 1; i < words.length; i++) {
            Path path = Path.of(words[i]);
            compare(path.getFileName().toString(), Files.readAllBytes(path), rounds, 1);
        }
    }
}
