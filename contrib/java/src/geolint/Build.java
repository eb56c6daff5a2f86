package geolint;

import java.io.IOException;
import java.io.InputStream;
import java.io.UncheckedIOException;
import java.nio.charset.StandardCharsets;
import java.util.Optional;

/**
 * What a jar was built from, as {@link Geolint#build} says it.
 *
 * @param version the version of the library
 * @param commit the commit that the jar was made of, where {@code make dist} made it
 * @param kit the proof kit that proved and compiled the library, where {@code make dist} made the jar
 */
public record Build(String version, Optional<String> commit, Optional<String> kit) {
    private static final String COMMIT = "commit: ";
    private static final String KIT = "proved and compiled by: ";

    /** By the file {@code BUILD} beside this class, which a package has. */
    static Build read() {
        try (InputStream file = Build.class.getResourceAsStream("BUILD")) {
            String told = file == null ? "" : new String(file.readAllBytes(), StandardCharsets.UTF_8);
            return new Build(Geolint.version(), said(told, COMMIT), said(told, KIT));
        } catch (IOException failure) {
            throw new UncheckedIOException(failure);
        }
    }

    private static Optional<String> said(String told, String name) {
        return told.lines().filter(line -> line.startsWith(name)).map(line -> line.substring(name.length())).findFirst();
    }

    /** A line for each: {@code geolint 0.1.0}, and the commit and the proof kit where they are known. */
    @Override
    public String toString() {
        return "geolint " + version + commit.map(it -> "\n" + COMMIT + it).orElse("") + kit.map(it -> "\n" + KIT + it).orElse("");
    }
}
