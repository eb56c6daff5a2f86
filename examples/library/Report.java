import geolint.Geolint;
import geolint.Verdict;
import java.io.IOException;
import java.io.InputStream;
import java.nio.file.Files;
import java.nio.file.Path;

/**
 * Checks a file and prints the report of {@code geolint stdin}.
 *
 * <pre>java -cp geolint.jar Report.java [PATH]</pre>
 *
 * <p>Without a path it checks standard input. The status is the program's: 0 valid, 1 not valid, 2 no verdict.
 */
final class Report {
    private Report() {}

    public static void main(String[] words) {
        try (InputStream text = words.length > 0 ? Files.newInputStream(Path.of(words[0])) : System.in) {
            Verdict verdict = Geolint.check(text);
            System.out.println(verdict);
            System.exit(verdict.isValid() ? 0 : 1);
        } catch (IOException failure) {
            System.err.println("cannot read: " + failure.getMessage());
            System.exit(2);
        }
    }
}
