package geolint;

import java.io.IOException;
import java.nio.charset.StandardCharsets;
import java.nio.file.Files;
import java.nio.file.NoSuchFileException;
import java.nio.file.Path;
import java.util.Random;

/**
 * Random collections, broken and cut ones too, in files that several threads check in parts of few bytes: each verdict is that of the text
 * in memory. Then a large one, in parts as they are.
 *
 * <pre>geolint.SmallParts SEED COUNT</pre>
 */
final class SmallParts {
    private static final String LOOKS = "},{\\\"type\\\":\\\"Feature\\\",\\\"geometry\\\":null,\\\"properties\\\":null}";
    private static final String[] BROKEN = {"{}", "7", "[]", "\"" + LOOKS + "\"", "{\"type\":\"Feature\"}"};

    private static int compared;
    private static int wrong;

    private SmallParts() {}

    private static void wants(String what, Object got, Object wanted) {
        compared++;
        if (!got.equals(wanted)) {
            wrong++;
            System.out.println("FAILED: " + what + ": " + got + ", wanted " + wanted);
        }
    }

    private static String feature(Random chance) {
        if (chance.nextInt(50) == 0)
            return BROKEN[chance.nextInt(BROKEN.length)];
        String inner = "{\"list\":[{\"type\":\"Feature\",\"geometry\":null,\"properties\":null},{\"type\":\"Feature\",\"geometry\":null,\"properties\":{}}]}";
        String[] properties = {"null", "{\"s\":\"" + LOOKS + "\"}", inner, "{\"a\":[{},{\"b\":1}]}"};
        String point = "{\"type\":\"Point\",\"coordinates\":[" + (chance.nextInt(400) - 200) + ".5," + chance.nextInt(90) + "]}";
        return "{\"type\":\"Feature\",\"geometry\":" + (chance.nextBoolean() ? point : "null") + ",\"properties\":" + properties[chance.nextInt(4)] + "}";
    }

    private static byte[] text(Random chance, int most) {
        StringBuilder text = new StringBuilder("{\"type\":\"FeatureCollection\",\"features\":[");
        int count = chance.nextInt(most);
        for (int i = 0; i < count; i++)
            text.append(i > 0 ? chance.nextBoolean() ? ",\n" : "," : "").append(feature(chance));
        byte[] bytes = text.append("]}").toString().getBytes(StandardCharsets.UTF_8);
        if (chance.nextInt(3) == 0)
            bytes[chance.nextInt(bytes.length)] = (byte) "{}[],:\"\\ 0".charAt(chance.nextInt(10));
        return chance.nextInt(6) == 0 ? java.util.Arrays.copyOf(bytes, chance.nextInt(bytes.length)) : bytes;
    }

    public static void main(String[] words) throws IOException {
        Random chance = new Random(Long.parseLong(words[0]));
        Path file = Files.createTempFile("geolint", ".geojson");
        try {
            for (int number = 0; number < Integer.parseInt(words[1]); number++) {
                byte[] text = text(chance, 60);
                Limits limits = chance.nextInt(3) > 0 ? Limits.WIDEST : new Limits(1 + chance.nextInt(9), 1 + chance.nextInt(4000));
                Files.write(file, text);
                int jobs = 1 + chance.nextInt(9);
                wants("text " + number + " in " + jobs + " parts", Parts.check(file, jobs, limits, 1 + chance.nextInt(40)), Geolint.check(text, limits));
            }
            byte[] large = text(chance, 300_000);
            Files.write(file, large);
            wants("a large text", Geolint.check(file, 4, Limits.WIDEST), Geolint.check(large));
            try {
                Geolint.check(file, 0, Limits.WIDEST);
                wants("no job", "nothing", "an error");
            } catch (IllegalArgumentException refused) {
                wants("no job", refused.getMessage(), "jobs is 1 or more: 0");
            }
        } finally {
            Files.delete(file);
        }
        try {
            Geolint.check(file, 2, Limits.WIDEST);
            wants("no file", "nothing", "an error");
        } catch (NoSuchFileException missing) {
            wants("no file", missing.getMessage(), file.toString());
        }
        System.out.println(compared + " compared, " + wrong + " wrong");
        System.exit(wrong > 0 || compared == 0 ? 1 : 0);
    }
}
