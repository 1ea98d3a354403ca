import java.io.IOException;
import java.nio.file.FileSystem;
import java.nio.file.FileSystems;
import java.nio.file.Files;
import java.nio.file.Path;
import java.util.List;
import java.util.stream.Collectors;
import java.util.stream.Stream;
import org.objectweb.asm.ClassReader;
import org.objectweb.asm.ClassWriter;
import org.objectweb.asm.commons.ClassRemapper;
import org.objectweb.asm.commons.Remapper;

/** Relocate INTO FROM ..: copies classes of folders and jars, where ASM has a name of its own, so that a program may have another ASM. */
public final class Relocate {
    private static final Remapper NAMES = new Remapper() {
        @Override public String map(String name) {
            return name.startsWith("org/objectweb/asm/") ? "rdrecord/asm/" + name.substring("org/objectweb/asm/".length()) : name;
        }
    };

    private Relocate() { }

    public static void main(String[] words) throws IOException {
        for (int i = 1; i < words.length; i++) {
            Path from = Path.of(words[i]);
            if (Files.isDirectory(from)) {
                copy(from, Path.of(words[0]));
                continue;
            }
            try (FileSystem jar = FileSystems.newFileSystem(from)) {
                copy(jar.getPath("/"), Path.of(words[0]));
            }
        }
    }

    private static void copy(Path from, Path into) throws IOException {
        List<Path> all;
        try (Stream<Path> found = Files.walk(from)) {
            all = found.filter(p -> p.toString().endsWith(".class") && !p.toString().endsWith("module-info.class"))
                .collect(Collectors.toList());
        }
        for (Path each : all) {
            ClassReader reader = new ClassReader(Files.readAllBytes(each));
            ClassWriter writer = new ClassWriter(0);
            reader.accept(new ClassRemapper(writer, NAMES), 0);
            Path to = into.resolve(NAMES.map(reader.getClassName()) + ".class");
            Files.createDirectories(to.getParent());
            Files.write(to, writer.toByteArray());
        }
    }
}
