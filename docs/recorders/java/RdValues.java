import java.nio.charset.StandardCharsets;
import java.util.ArrayList;
import java.util.HashMap;
import java.util.IdentityHashMap;
import java.util.List;
import java.util.Map;
import java.util.Set;

/** How RdRecord spells values: equal ones alike and different ones differently, by the equality of Java and its types. */
final class RdValues {
    private static final Set<String> VALUES = Set.of("java.math.BigInteger", "java.math.BigDecimal", "java.util.UUID", "java.net.URI");
    private final Map<Object, String> equals = new HashMap<>();         // numbers of what is told apart by its equality
    private final Map<Object, Integer> same = new IdentityHashMap<>();   // of what is told apart by its identity, which stays alive
    private final Map<String, String> labels = new HashMap<>();          // of classes
    private final Map<String, Integer> counts = new HashMap<>();

    /** A value with its type; a key is told apart by its equality, as maps do. */
    String typed(Object value, boolean key) {
        if (value instanceof Integer || value instanceof Boolean) return value.toString();
        if (value instanceof String text) return quote(text.startsWith("'") ? "'" + text : text);
        return quote("'" + plain(value, key));
    }

    /** A text that no unequal value has; what may change is told apart by its identity. */
    private String plain(Object value, boolean key) {
        if (value == null || value instanceof Integer || value instanceof Boolean || value instanceof Double) return "" + value;
        if (value instanceof Long) return value + "L";
        if (value instanceof Short) return value + "s";
        if (value instanceof Byte) return value + "b";
        if (value instanceof Float) return value + "f";
        if (value instanceof Character) return "char " + value;
        if (value instanceof String text) return '"' + text.replace("\\", "\\\\").replace("\"", "\\\"") + '"';
        if (value instanceof Enum<?> one) return label(one.getDeclaringClass()) + "." + one.name();
        String name = value.getClass().getName();
        if (value instanceof Record) return record(value);
        boolean equal = key || name.startsWith("java.time.") || VALUES.contains(name);
        if (equal) return equals.computeIfAbsent(value, v -> label(v.getClass()) + "=" + (equals.size() + 1));
        return label(value.getClass()) + "#" + same.computeIfAbsent(value, v -> same.size() + 1);
    }

    private String record(Object value) {
        List<String> parts = new ArrayList<>();
        for (var each : value.getClass().getRecordComponents()) {
            try {
                var field = value.getClass().getDeclaredField(each.getName());
                field.setAccessible(true);
                parts.add(plain(field.get(value), false));
            } catch (ReflectiveOperationException | RuntimeException e) {
                return label(value.getClass()) + "#" + same.computeIfAbsent(value, v -> same.size() + 1);
            }
        }
        return label(value.getClass()) + "(" + String.join(",", parts) + ")";
    }

    private String label(Class<?> of) {                                  // no two classes have one
        return labels.computeIfAbsent(of.getName(), name -> {
            String last = name.substring(name.lastIndexOf('.') + 1);
            String made = last.substring(0, Math.min(40, last.length()));
            int n = counts.merge(made, 1, Integer::sum);
            return n == 1 ? made : made + "~" + n;
        });
    }

    private String quote(String text) {
        byte[] bytes = bytes(text);
        if (bytes.length > 255) {                                        // a beginning, and a number that no other text has
            String number = equals.computeIfAbsent(text, t -> "'..#" + (equals.size() + 1));
            bytes = bytes(number + " " + text.substring(0, 60));
        }
        StringBuilder spelt = new StringBuilder("\"");
        for (byte b : bytes) {
            if (b == '"' || b == '\\') spelt.append('\\').append((char) b);
            else if (b >= 0x20 && b <= 0x7e) spelt.append((char) b);
            else spelt.append(String.format("\\x%02x", b & 0xff));
        }
        return spelt.append('"').toString();
    }

    private static byte[] bytes(String text) {                           // also of half a character
        byte[] plain = text.getBytes(StandardCharsets.UTF_8);
        return new String(plain, StandardCharsets.UTF_8).equals(text) ? plain : ("'utf16 " + text.chars().boxed().toList()).getBytes(StandardCharsets.UTF_8);
    }
}
