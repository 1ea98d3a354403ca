package rdrecord;

import java.io.IOException;
import java.nio.file.Files;
import java.nio.file.Path;
import java.util.HashMap;
import java.util.Map;

/** The file of objects: which classes and fields are to be recorded, each with its kind. */
final class Asked {
    private static final Map<String, Entry> CLASSES = new HashMap<>();
    private static final Map<String, Entry> FIELDS = new HashMap<>();
    private static Entry[] all = {};

    private Asked() { }

    /** One line of the file. */
    static final class Entry {
        final int number;
        final String kind;
        final String what;
        final Map<String, String> methods = new HashMap<>();

        Entry(int number, String kind, String what) {
            this.number = number;
            this.kind = kind;
            this.what = what;
        }

        /** The last two words of the name, as Shop.stock. */
        String name() {
            int dot = what.lastIndexOf('.', Math.max(0, what.lastIndexOf('.') - 1));
            return what.substring(dot + 1);
        }
    }

    static void read(String file) throws IOException {
        for (String line : Files.readAllLines(Path.of(file))) {
            String[] words = line.replaceAll("#.*", "").strip().split("\\s+");
            if (words.length < 2) {
                if (!words[0].isEmpty()) System.err.println("rdrecord: " + file + " has a line of one word: " + line);
                continue;
            }
            Entry made = new Entry(all.length, words[0], words[1]);
            for (int i = 2; i < words.length; i++) {
                String[] pair = words[i].split("=", 2);
                made.methods.put(pair[0], pair[pair.length - 1]);
            }
            all = java.util.Arrays.copyOf(all, all.length + 1);
            all[made.number] = made;
            CLASSES.put(words[1], made);                                 // which of both it is, the class files say
            FIELDS.put(words[1], made);
        }
    }

    static Entry ofClass(String name) { return CLASSES.get(name); }

    static Entry ofField(String owner, String field) { return FIELDS.get(owner.replace('/', '.') + "." + field); }

    static Entry of(int number) { return all[number]; }

    static boolean fields() { return all.length > 0; }
}
