import java.io.IOException;
import java.net.URL;
import java.net.URLClassLoader;
import java.nio.file.Path;

/**
 * Two loaders of classes have the library at once, as two applications in one server, and each finds its own.
 *
 * <pre>Loaders JAR</pre>
 */
final class Loaders {
    private Loaders() {}

    private static String judge(URLClassLoader loader) throws ReflectiveOperationException {
        Class<?> geolint = loader.loadClass("geolint.Geolint");
        return geolint.getMethod("check", byte[].class).invoke(null, (Object) new byte[] {'7'}) + " by " + System.identityHashCode(geolint);
    }

    public static void main(String[] words) throws ReflectiveOperationException, IOException {
        URL[] jar = {Path.of(words[0]).toUri().toURL()};
        try (URLClassLoader one = new URLClassLoader(jar, null);
                URLClassLoader other = new URLClassLoader(jar, null)) {
            String first = judge(one);
            String second = judge(other);
            Tally.wants("the first verdict", first.startsWith("broken G1 at 0: not an object by "), true);
            Tally.wants("the second verdict", second.startsWith("broken G1 at 0: not an object by "), true);
            Tally.wants("one class for both", first.equals(second), false);
        }
        Tally.end();
    }
}
