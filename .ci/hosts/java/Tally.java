import java.util.Objects;
import java.util.concurrent.Callable;

/** Counts what does not hold, and says it. */
final class Tally {
    private static int failed;

    private Tally() {}

    static synchronized void wants(String name, Object got, Object wanted) {
        if (Objects.equals(got, wanted))
            return;
        if (++failed <= 10)
            System.out.println("FAILED: " + name + ": " + got + ", wanted " + wanted);
    }

    /** The call must throw this, and what it says must have these words in it. */
    static void refuses(String name, Class<? extends Throwable> error, String words, Callable<?> call) {
        try {
            wants(name, call.call(), error);
        } catch (Throwable thrown) {
            wants(name, error.isInstance(thrown) && String.valueOf(thrown.getMessage()).contains(words) ? error : thrown, error);
        }
    }

    static void end() {
        System.out.println(failed + " failed");
        System.exit(failed == 0 ? 0 : 1);
    }
}
