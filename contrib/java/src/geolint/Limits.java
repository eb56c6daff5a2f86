package geolint;

/**
 * How deep a text may nest, and how long it may be.
 *
 * @param maxDepth how many arrays and objects may be open inside each other, from 1 to 256
 * @param maxBytes how many bytes a text may have, from 1 to 2<sup>60</sup>
 */
public record Limits(int maxDepth, long maxBytes) {
    /** The most that is allowed of either. */
    public static final Limits WIDEST = new Limits(256, 1L << 60);

    /**
     * Takes limits that are allowed.
     *
     * @throws IllegalArgumentException where they are not
     */
    public Limits {
        if (maxDepth < 1 || maxDepth > 256 || maxBytes < 1 || maxBytes > 1L << 60)
            throw new IllegalArgumentException("a depth is from 1 to 256, and a number of bytes from 1 to 2^60: " + maxDepth + ", " + maxBytes);
    }
}
