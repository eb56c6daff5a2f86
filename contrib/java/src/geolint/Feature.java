package geolint;

import java.util.OptionalLong;

/**
 * What is found in a feature: an element of the array that the first {@code features} of the text's object holds. Places are byte offsets in
 * the text.
 *
 * @param index how many elements stand before it
 * @param start where its first byte stands
 * @param end the place after its last byte, of an element that is an object or an array
 * @param id where the value of its first member {@code id} begins, where it has one
 * @param verdict {@link Verdict.Valid} with its warnings, or {@link Verdict.Broken} with the least of its faults
 */
public record Feature(long index, long start, OptionalLong end, OptionalLong id, Verdict verdict) {
    /**
     * Whether no rule is broken in it.
     *
     * @return true where its verdict is {@link Verdict.Valid}
     */
    public boolean isValid() {
        return verdict.isValid();
    }
}
