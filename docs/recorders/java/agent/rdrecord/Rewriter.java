package rdrecord;

import java.util.ArrayList;
import java.util.BitSet;
import java.util.HashMap;
import java.util.List;
import java.util.Map;
import org.objectweb.asm.ClassReader;
import org.objectweb.asm.ClassVisitor;
import org.objectweb.asm.ClassWriter;
import org.objectweb.asm.Handle;
import org.objectweb.asm.Label;
import org.objectweb.asm.MethodVisitor;
import org.objectweb.asm.Opcodes;
import org.objectweb.asm.Type;

/** Rewrites a class: what its methods call, its monitors, its fields and the bodies of its tasks. */
final class Rewriter extends ClassVisitor implements Opcodes {
    final ClassLoader loader;
    final Classes classes;
    final Map<String, BitSet> unused;                                    // calls whose result isn't used, by method
    private final List<Runnable> helpers = new ArrayList<>();
    private final Map<String, String> helped = new HashMap<>();
    private Asked.Entry asked;
    String self;
    String above;
    String source;
    boolean isInterface;
    private int version;
    private boolean task;

    private Rewriter(ClassVisitor to, ClassLoader loader, Classes classes, Map<String, BitSet> unused) {
        super(ASM9, to);
        this.loader = loader;
        this.classes = classes;
        this.unused = unused;
    }

    static byte[] rewrite(ClassLoader loader, byte[] bytes) {
        ClassReader reader = new ClassReader(bytes);
        Classes classes = Classes.of(loader);
        classes.read(bytes);
        Map<String, BitSet> unused = Asked.fields() ? unused(reader) : Map.of();
        ClassWriter writer = new ClassWriter(reader, ClassWriter.COMPUTE_MAXS);
        reader.accept(new Rewriter(writer, loader, classes, unused), ClassReader.EXPAND_FRAMES);
        return writer.toByteArray();
    }

    private static Map<String, BitSet> unused(ClassReader reader) {
        Map<String, BitSet> found = new HashMap<>();
        reader.accept(new ClassVisitor(ASM9) {
            @Override public MethodVisitor visitMethod(int access, String name, String desc, String signature, String[] exceptions) {
                BitSet set = new BitSet();
                found.put(name + desc, set);
                return new MethodVisitor(ASM9) {
                    private int calls;
                    private boolean call;

                    @Override public void visitMethodInsn(int op, String owner, String name, String desc, boolean itf) {
                        calls++;
                        call = true;
                    }

                    @Override public void visitInsn(int op) {
                        if (call && (op == POP || op == POP2)) set.set(calls);
                        call = false;
                    }

                    @Override public void visitVarInsn(int op, int slot) { call = false; }
                    @Override public void visitIntInsn(int op, int value) { call = false; }
                    @Override public void visitLdcInsn(Object value) { call = false; }
                    @Override public void visitTypeInsn(int op, String type) { call = false; }
                    @Override public void visitJumpInsn(int op, Label to) { call = false; }
                    @Override public void visitFieldInsn(int op, String owner, String name, String desc) { call = false; }
                    @Override public void visitInvokeDynamicInsn(String name, String desc, Handle by, Object... args) { call = false; }
                };
            }
        }, ClassReader.SKIP_DEBUG | ClassReader.SKIP_FRAMES);
        return found;
    }

    @Override public void visit(int version, int access, String name, String signature, String above, String[] interfaces) {
        super.visit(version, access, name, signature, above, interfaces);
        this.version = version & 0xffff;
        self = name;
        this.above = above;
        isInterface = (access & ACC_INTERFACE) != 0;
        Asked.Entry found = Asked.ofClass(name.replace('/', '.'));
        asked = found != null && !found.methods.isEmpty() && !isInterface ? found : null;
        task = !isInterface && (is("java/lang/Runnable") || is("java/util/concurrent/Callable") || is("java/util/concurrent/ForkJoinTask"));
    }

    private boolean is(String type) { return classes.isA(self, type, loader); }

    @Override public void visitSource(String source, String debug) {
        super.visitSource(source, debug);
        this.source = source;
    }

    private boolean isTask(int access, String name, String desc) {
        if (!task || (access & (ACC_STATIC | ACC_ABSTRACT | ACC_NATIVE | ACC_BRIDGE)) != 0) return false;
        return name.equals("run") && desc.equals("()V") || name.equals("call") && desc.startsWith("()") || name.equals("compute") && desc.startsWith("()")
            || name.equals("exec") && desc.equals("()Z");
    }

    @Override public MethodVisitor visitMethod(int access, String name, String desc, String signature, String[] exceptions) {
        boolean body = (access & (ACC_ABSTRACT | ACC_NATIVE)) == 0;
        if (asked != null && body && asked.methods.containsKey(name) && (access & (ACC_BRIDGE | ACC_SYNTHETIC)) == 0) {
            String inner = name + "$rdrecord";
            wrapper(access, name, desc, signature, exceptions, inner);
            access = access & ~(ACC_PUBLIC | ACC_PROTECTED | ACC_FINAL) | ACC_PRIVATE | ACC_SYNTHETIC;
            MethodVisitor made = super.visitMethod(access, inner, desc, null, exceptions);
            return new MethodRewriter(this, made, access, name, desc, false, version);
        }
        MethodVisitor made = super.visitMethod(access, name, desc, signature, exceptions);
        if (!body) return made;
        boolean tells = isTask(access, name, desc);
        if (tells) Tasks.telling(self);
        return new MethodRewriter(this, made, access, name, desc, tells, version);
    }

    @Override public void visitEnd() {
        for (int i = 0; i < helpers.size(); i++) helpers.get(i).run();
        super.visitEnd();
    }

    /** Adds a static method to this class and has its name; what it does is rewritten as all else, where that is wanted. */
    String helper(String key, String desc, boolean rewritten, java.util.function.Consumer<MethodVisitor> body) {
        String known = helped.get(key);
        if (known != null) return known;
        String name = "rdrecord$" + helped.size();
        helped.put(key, name);
        helpers.add(() -> {
            int access = ACC_STATIC | ACC_SYNTHETIC | ACC_PRIVATE;
            MethodVisitor made = super.visitMethod(access, name, desc, null, null);
            if (rewritten) made = new MethodRewriter(this, made, access, name, desc, false, version);
            made.visitCode();
            body.accept(made);
            made.visitMaxs(0, 0);
            made.visitEnd();
        });
        return name;
    }

    /** A method that is a call of the trace: the program's own one is inside. */
    private void wrapper(int access, String name, String desc, String signature, String[] exceptions, String inner) {
        MethodVisitor m = super.visitMethod(access & ~ACC_SYNCHRONIZED, name, desc, signature, exceptions);
        boolean isStatic = (access & ACC_STATIC) != 0;
        Type[] types = Type.getArgumentTypes(desc);
        Type result = Type.getReturnType(desc);
        List<Object> locals = new ArrayList<>();
        int slot = isStatic ? 0 : 1;
        if (!isStatic) locals.add(self);
        for (Type type : types) {
            slot += type.getSize();
            locals.add(switch (type.getSort()) {
                case Type.INT, Type.SHORT, Type.BYTE, Type.CHAR, Type.BOOLEAN -> INTEGER;
                case Type.LONG -> LONG;
                case Type.FLOAT -> FLOAT;
                case Type.DOUBLE -> DOUBLE;
                default -> type.getInternalName();
            });
        }
        int begun = slot;
        int args = slot + 1;
        int value = slot + 2;
        locals.add("java/lang/Object");
        locals.add("[Ljava/lang/Object;");
        m.visitCode();
        if (isStatic) m.visitLdcInsn(Type.getObjectType(self));
        else m.visitVarInsn(ALOAD, 0);
        MethodRewriter.push(m, asked.number);
        m.visitMethodInsn(INVOKESTATIC, "rdrecord/Calls", "begin", "(Ljava/lang/Object;I)Ljava/lang/Object;", false);
        m.visitVarInsn(ASTORE, begun);
        MethodRewriter.push(m, types.length);
        m.visitTypeInsn(ANEWARRAY, "java/lang/Object");
        slot = isStatic ? 0 : 1;
        for (int i = 0; i < types.length; i++) {
            m.visitInsn(DUP);
            MethodRewriter.push(m, i);
            m.visitVarInsn(types[i].getOpcode(ILOAD), slot);
            MethodRewriter.box(m, types[i]);
            m.visitInsn(AASTORE);
            slot += types[i].getSize();
        }
        m.visitVarInsn(ASTORE, args);
        Label from = new Label();
        Label to = new Label();
        Label failed = new Label();
        m.visitTryCatchBlock(from, to, failed, null);
        m.visitLabel(from);
        if (!isStatic) m.visitVarInsn(ALOAD, 0);
        slot = isStatic ? 0 : 1;
        for (Type type : types) {
            m.visitVarInsn(type.getOpcode(ILOAD), slot);
            slot += type.getSize();
        }
        m.visitMethodInsn(isStatic ? INVOKESTATIC : INVOKESPECIAL, self, inner, desc, false);
        m.visitLabel(to);
        if (result.getSort() == Type.VOID) m.visitInsn(ACONST_NULL);
        else {
            m.visitInsn(result.getSize() == 2 ? DUP2 : DUP);
            MethodRewriter.box(m, result);
        }
        m.visitVarInsn(ASTORE, value);
        m.visitVarInsn(ALOAD, begun);
        m.visitLdcInsn(asked.methods.get(name));
        m.visitVarInsn(ALOAD, args);
        m.visitVarInsn(ALOAD, value);
        m.visitMethodInsn(INVOKESTATIC, "rdrecord/Calls", "done", "(Ljava/lang/Object;Ljava/lang/String;[Ljava/lang/Object;Ljava/lang/Object;)V", false);
        m.visitInsn(result.getOpcode(IRETURN));
        m.visitLabel(failed);
        m.visitFrame(F_NEW, locals.size(), locals.toArray(), 1, new Object[] {"java/lang/Throwable"});
        m.visitInsn(DUP);
        m.visitVarInsn(ASTORE, value);
        m.visitVarInsn(ALOAD, begun);
        m.visitLdcInsn(asked.methods.get(name));
        m.visitVarInsn(ALOAD, args);
        m.visitVarInsn(ALOAD, value);
        m.visitTypeInsn(CHECKCAST, "java/lang/Throwable");
        m.visitMethodInsn(INVOKESTATIC, "rdrecord/Calls", "failed", "(Ljava/lang/Object;Ljava/lang/String;[Ljava/lang/Object;Ljava/lang/Throwable;)V", false);
        m.visitInsn(ATHROW);
        m.visitMaxs(0, 0);
        m.visitEnd();
    }
}
