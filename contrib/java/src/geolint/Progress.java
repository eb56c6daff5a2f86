package geolint;

/** What the bytes show that were fed so far. */
public enum Progress {
    /** They begin a JSON text within the depth, and are no more than allowed. */
    OPEN,
    /** They are refused, and so is every input that begins so: the verdict is settled. */
    REFUSED
}
