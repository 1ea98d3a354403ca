package rdrecord;

import java.nio.file.Files;
import java.nio.file.Path;
import java.util.ArrayList;
import java.util.HashMap;
import java.util.List;
import java.util.Map;
import java.util.concurrent.ConcurrentHashMap;
import java.util.stream.Collectors;

/** Places in the sources of the program: each has a number, which the rewritten code hands on. */
final class Places {
    private static final String[] ROOTS = {"", "src/main/java/", "src/test/java/", "src/", "src/java/", "src/test/", "test/", "tests/"};
    private static final List<String> TEXTS = new ArrayList<>(List.of("# nowhere:0\n"));
    private static final Map<String, Integer> NUMBERS = new HashMap<>();
    private static final Map<String, String> FILES = new ConcurrentHashMap<>();
    private static final int CALLERS = number(System.getenv("RDRECORD_CALLERS"));
    private static final StackWalker STACK = StackWalker.getInstance();
    private static volatile String[] texts = {"# nowhere:0\n"};

    private Places() { }

    private static int number(String text) { return text != null && text.matches("[0-9]{1,3}") ? Integer.parseInt(text) : 0; }

    /** The number of a line of the source of a class. */
    static synchronized int number(String owner, String source, int line) {
        String text = "# " + file(owner, source) + ":" + line + "\n";
        Integer known = NUMBERS.get(text);
        if (known != null) return known;
        NUMBERS.put(text, TEXTS.size());
        TEXTS.add(text);
        if (TEXTS.size() > texts.length) {
            String[] longer = new String[TEXTS.size() * 2];
            TEXTS.toArray(longer);
            texts = longer;
        } else {
            texts[TEXTS.size() - 1] = text;
        }
        return TEXTS.size() - 1;
    }

    private static String file(String owner, String source) {
        String folder = owner.contains("/") ? owner.substring(0, owner.lastIndexOf('/') + 1) : "";
        String path = folder + (source == null ? owner.substring(folder.length()) + ".class" : source);
        return FILES.computeIfAbsent(path, p -> {
            for (String root : ROOTS) if (Files.exists(Path.of(root + p))) return root + p;
            return p;
        });
    }

    /** The comment lines of a place, those of its callers first. */
    static String text(int place) {
        String text = texts[Math.abs(place)];
        return CALLERS == 0 ? text : walk(null, 1, CALLERS) + text;
    }

    /** The comment lines of the place where this class was called. */
    static String caller(String owner) { return walk(owner, 0, CALLERS + 1); }

    private static String walk(String without, int skipped, int most) {
        List<StackWalker.StackFrame> frames = STACK.walk(all -> all
            .filter(f -> !f.getClassName().startsWith("rdrecord.") && !f.getClassName().equals(without))
            .skip(skipped).limit(most).collect(Collectors.toList()));
        StringBuilder made = new StringBuilder();
        for (int i = frames.size() - 1; i >= 0; i--) {
            StackWalker.StackFrame f = frames.get(i);
            made.append("# ").append(file(f.getClassName().replace('.', '/'), f.getFileName())).append(':')
                .append(Math.max(0, f.getLineNumber())).append('\n');
        }
        return made.length() == 0 ? texts[0] : made.toString();
    }
}
