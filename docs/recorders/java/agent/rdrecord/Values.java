package rdrecord;

import java.lang.reflect.RecordComponent;
import java.util.Map;
import java.util.concurrent.ConcurrentHashMap;
import java.util.concurrent.atomic.AtomicInteger;

/**
 * How values are spelled: equal ones alike and different ones differently. What has value equality is spelled by its value with its type, all
 * else by its identity. No code of the program runs, but for keys of a class with an equality of its own.
 */
final class Values {
    private static final int LONGEST = 120;                              // characters of a text that is spelled whole
    private static final Map<String, AtomicInteger> LABELS = new ConcurrentHashMap<>();
    private static final Map<Object, Integer> EQUALS = new ConcurrentHashMap<>();
    private static final Weak<Object, Integer> IDENTITIES = new Weak<>();
    private static final AtomicInteger NUMBERS = new AtomicInteger();    // never given again
    private static final ClassValue<String> LABEL = new ClassValue<>() {
        @Override protected String computeValue(Class<?> of) {
            String name = of.getName().substring(of.getName().lastIndexOf('.') + 1);
            if (of.isHidden()) name = name.replaceAll("/.*", "");
            if (name.length() > 40) name = name.substring(0, 40);
            int n = LABELS.computeIfAbsent(name, k -> new AtomicInteger()).incrementAndGet();
            return n == 1 ? name : name + "~" + n;
        }
    };
    private static final ClassValue<Boolean> OWN = new ClassValue<>() {
        @Override protected Boolean computeValue(Class<?> of) {
            try {
                return of.getMethod("equals", Object.class).getDeclaringClass() != Object.class;
            } catch (ReflectiveOperationException | LinkageError e) {
                return false;
            }
        }
    };

    private Values() { }

    /** A short name of a class, which no other class has. */
    static String label(Class<?> of) { return LABEL.get(of); }

    /** A value as a trace spells it. */
    static String spell(Object value) {
        if (value == null) return "nil";
        if (value instanceof Integer || value instanceof Boolean) return value.toString();
        if (value instanceof String text) return quote(text.startsWith("'") ? "'" + text : text);
        return quote("'" + plain(value));
    }

    /** A number, where all are of one type. */
    static String number(long value) { return Long.toString(value); }

    /** A value of a field or an atomic of one type: a number as a number, and what a new one holds as nil. */
    static String content(Object value) {
        if (value instanceof Long || value instanceof Integer || value instanceof Short || value instanceof Byte) {
            return value.toString();
        }
        return spell(value);
    }

    /** A key, by the equality of maps; numbers is the table of the keys of one map. */
    static String key(Object key, Map<Object, String> numbers) {
        if (key == null || known(key) || !OWN.get(key.getClass()) || key instanceof Enum) return spell(key);
        Lane me = Trace.me();
        me.quiet++;                                                      // what equality does is no step of the program
        try {
            return quote(numbers.computeIfAbsent(key, k -> "'" + label(k.getClass()) + "=" + NUMBERS.incrementAndGet()));
        } catch (RuntimeException | StackOverflowError e) {
            return spell(key);
        } finally {
            me.quiet--;
        }
    }

    private static boolean known(Object value) {
        return value instanceof String || value instanceof Number && value.getClass().getName().startsWith("java.lang.")
            || value instanceof Boolean || value instanceof Character || value instanceof Record || constant(value);
    }

    private static boolean constant(Object value) {                      // of the language, with an equality that never changes
        String name = value.getClass().getName();
        return name.startsWith("java.time.") || name.equals("java.util.UUID") || name.equals("java.math.BigInteger")
            || name.equals("java.math.BigDecimal") || name.equals("java.net.URI");
    }

    private static String plain(Object value) {
        if (value == null) return "nil";
        if (value instanceof String text) return '"' + text.replace("\\", "\\\\").replace("\"", "\\\"") + '"';
        if (value instanceof Integer) return value.toString();
        if (value instanceof Boolean || value instanceof Double) return value.toString();
        if (value instanceof Long) return value + "L";
        if (value instanceof Short) return value + "s";
        if (value instanceof Byte) return value + "b";
        if (value instanceof Float) return value + "f";
        if (value instanceof Character) return "char " + value;
        if (value instanceof Enum<?> one) return label(one.getDeclaringClass()) + "." + one.name();
        if (value instanceof Class<?> one) return "class " + label(one);
        if (constant(value)) return label(value.getClass()) + "=" + EQUALS.computeIfAbsent(value, v -> NUMBERS.incrementAndGet());
        if (value instanceof Record) return record(value);
        return label(value.getClass()) + "#" + IDENTITIES.get(value, v -> NUMBERS.incrementAndGet());
    }

    private static String record(Object value) {
        StringBuilder made = new StringBuilder(label(value.getClass())).append('(');
        try {
            for (RecordComponent each : value.getClass().getRecordComponents()) {
                var field = value.getClass().getDeclaredField(each.getName());
                field.setAccessible(true);
                made.append(made.charAt(made.length() - 1) == '(' ? "" : ",").append(plain(field.get(value)));
            }
        } catch (ReflectiveOperationException | RuntimeException e) {
            return label(value.getClass()) + "#" + IDENTITIES.get(value, v -> NUMBERS.incrementAndGet());
        }
        return made.append(')').toString();
    }

    private static String quote(String text) {
        int most = Math.min(text.length(), LONGEST);
        StringBuilder made = new StringBuilder("\"");
        int bytes = encode(text, most, made);
        if (text.length() <= LONGEST && bytes <= 255) return made.append('"').toString();
        made.setLength(1);
        encode(text, 40, made);
        String mark = text.startsWith("'") ? "" : "'";                   // so that no short text is spelled as this one
        made.insert(1, mark).append("..#").append(EQUALS.computeIfAbsent(text, t -> NUMBERS.incrementAndGet()));
        return made.append('"').toString();
    }

    private static int encode(String text, int most, StringBuilder made) {
        int bytes = 0;
        for (int i = 0; i < most; i++) {
            char c = text.charAt(i);
            bytes += c < 0x80 ? 1 : c < 0x800 ? 2 : 3;
            if (c == '"' || c == '\\') made.append('\\').append(c);
            else if (c >= 0x20 && c <= 0x7e) made.append(c);
            else if (c < 0x80) hex(made, c);
            else if (c < 0x800) hex(made, 0xc0 | c >> 6, 0x80 | c & 0x3f);
            else hex(made, 0xe0 | c >> 12, 0x80 | c >> 6 & 0x3f, 0x80 | c & 0x3f);
        }
        return bytes;
    }

    private static void hex(StringBuilder made, int... bytes) {
        for (int b : bytes) made.append("\\x").append(Character.forDigit(b >> 4, 16)).append(Character.forDigit(b & 15, 16));
    }
}
