package geolint;

import java.util.List;

/** What a text is. Places are byte offsets from 0. Its string is the report of the program {@code geolint}. */
public sealed interface Verdict {
    /**
     * Whether it is a GeoJSON text, perhaps with warnings.
     *
     * @return true for {@link Valid} alone
     */
    default boolean isValid() {
        return this instanceof Valid;
    }

    /**
     * A GeoJSON text.
     *
     * @param warnings of each kind of warning that there is how many, in the order of their numbers
     */
    record Valid(List<Warning> warnings) implements Verdict {
        /** Takes a copy of the warnings. */
        public Valid {
            warnings = List.copyOf(warnings);
        }

        @Override
        public String toString() {
            StringBuilder lines = new StringBuilder("valid");
            for (Warning warning : warnings)
                lines.append('\n').append(warning);
            return lines.toString();
        }
    }

    /**
     * A JSON text that breaks a rule: that of the least place in the whole text.
     *
     * @param rule the number in the rule's name, 1 to 21
     * @param place the byte offset of what breaks it
     */
    record Broken(int rule, long place) implements Verdict {
        /**
         * The name of the rule.
         *
         * @return as {@code G15}
         */
        public String code() {
            return "G" + rule;
        }

        /**
         * What the rule says.
         *
         * @return as {@code ring not closed}
         */
        public String message() {
            return Native.ruleText(rule);
        }

        @Override
        public String toString() {
            return "broken " + code() + " at " + place + ": " + message();
        }
    }

    /**
     * No JSON text within the limits.
     *
     * @param cause 1 syntax, 2 truncated, 3 too deep, 4 too long
     * @param place the byte offset at which no text goes on
     */
    record NotJson(int cause, long place) implements Verdict {
        /**
         * The name of the cause.
         *
         * @return as {@code J2}
         */
        public String code() {
            return "J" + cause;
        }

        /**
         * What the cause says.
         *
         * @return as {@code truncated}
         */
        public String message() {
            return Native.causeText(cause);
        }

        @Override
        public String toString() {
            return "not JSON at " + place + ": " + message();
        }
    }

    /**
     * The warnings of one kind in a valid text.
     *
     * @param kind the number in the kind's name, 1 to 9
     * @param count how many there are; it stays at 4294967295
     * @param first the byte offset of the first
     */
    record Warning(int kind, long count, long first) {
        /**
         * The name of the kind.
         *
         * @return as {@code W5}
         */
        public String code() {
            return "W" + kind;
        }

        /**
         * What the kind says.
         *
         * @return as {@code position out of range}
         */
        public String message() {
            return Native.warningText(kind);
        }

        @Override
        public String toString() {
            return "warning " + code() + " count " + count + " first " + first + ": " + message();
        }
    }
}
