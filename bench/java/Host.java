package paragon;

import static java.lang.foreign.ValueLayout.ADDRESS;
import static java.lang.foreign.ValueLayout.JAVA_BYTE;
import static java.lang.foreign.ValueLayout.JAVA_INT;

import java.io.BufferedOutputStream;
import java.io.FileDescriptor;
import java.io.FileOutputStream;
import java.io.IOException;
import java.io.PrintStream;
import java.lang.classfile.ClassFile;
import java.lang.classfile.MethodModel;
import java.lang.constant.ClassDesc;
import java.lang.constant.ConstantDescs;
import java.lang.foreign.Arena;
import java.lang.foreign.FunctionDescriptor;
import java.lang.foreign.Linker;
import java.lang.foreign.MemorySegment;
import java.lang.foreign.SymbolLookup;
import java.lang.invoke.MethodHandle;
import java.lang.invoke.MethodHandles;
import java.lang.invoke.MethodType;
import java.lang.reflect.AccessFlag;
import java.lang.reflect.Field;
import java.lang.reflect.InvocationTargetException;
import java.lang.reflect.Method;
import java.nio.file.Files;
import java.nio.file.Path;
import java.util.ArrayDeque;
import java.util.HashMap;
import java.util.List;
import java.util.Map;
import java.util.Queue;
import java.util.stream.Stream;

/**
 * Runs the class files of a folder on this virtual machine, as they are.
 *
 * <p>The words are the class with main and an input file, which is taken to be right; further pairs
 * run further programs, one behind the other. All class files of the folder are loaded and linked.
 * Their channels are native methods, which JNI binds to two methods of this class. Printed are a
 * line for each output and one for each ending.
 */
public final class Host {
    private static final int LOCKS = 256;
    private static final long STACK = 1L << 30;

    // A version of JNI, and places of functions in its tables.
    private static final int VERSION = 0x00010008;
    private static final int GET_ENV = 6;
    private static final int GET_VERSION = 4;
    private static final int DEFINE_CLASS = 5;
    private static final int EXCEPTION_DESCRIBE = 16;
    private static final int REGISTER_NATIVES = 215;
    private static final int TURNS = 1000;

    private static final Arena ARENA = Arena.global();
    private static final Linker LINKER = Linker.nativeLinker();
    private static final MethodHandles.Lookup OWN = MethodHandles.lookup();

    private static final Map<String, Queue<Integer>> INPUTS = new HashMap<>();
    private static final PrintStream TOLD =
        new PrintStream(new BufferedOutputStream(new FileOutputStream(FileDescriptor.out)));

    // What an input gives.
    static int next(String channel) {
        Integer number = INPUTS.getOrDefault(channel, new ArrayDeque<>()).poll();
        return number == null ? 0 : number;
    }

    // What an output does.
    static void put(String channel, int number) {
        TOLD.println("out " + channel + " " + number);
    }

    private static void readInputs(Path file) throws IOException {
        INPUTS.clear();
        for (String line : Files.readAllLines(file)) {
            String[] words = line.split(":? ");
            Stream<Integer> numbers = Stream.of(words).skip(1).map(Integer::valueOf);
            INPUTS.put(words[0].replace(":", ""), new ArrayDeque<>(numbers.toList()));
        }
    }

    // The C function at this place of the table to which a pointer of JNI leads.
    private static MemorySegment function(MemorySegment jni, int place) {
        MemorySegment table = jni.reinterpret(ADDRESS.byteSize()).get(ADDRESS, 0);
        return table.reinterpret((place + 1) * ADDRESS.byteSize()).getAtIndex(ADDRESS, place);
    }

    private static MethodHandle handle(MemorySegment jni, int place, FunctionDescriptor kind) {
        return LINKER.downcallHandle(function(jni, place), kind);
    }

    // JNI, as this thread calls it.
    private static MemorySegment jni() throws Throwable {
        String home = System.getProperty("java.home");
        Path library = Path.of(home, "lib", "server", System.mapLibraryName("jvm"));
        MemorySegment machines = SymbolLookup.libraryLookup(library, ARENA)
            .find("JNI_GetCreatedJavaVMs").orElseThrow();
        MemorySegment pointer = ARENA.allocate(ADDRESS);
        MemorySegment number = ARENA.allocate(JAVA_INT);
        FunctionDescriptor kind = FunctionDescriptor.of(JAVA_INT, ADDRESS, JAVA_INT, ADDRESS);
        int failed = (int) LINKER.downcallHandle(machines, kind).invokeExact(pointer, 1, number);
        MemorySegment machine = pointer.get(ADDRESS, 0);
        kind = FunctionDescriptor.of(JAVA_INT, ADDRESS, ADDRESS, JAVA_INT);
        failed |= (int) handle(machine, GET_ENV, kind).invokeExact(machine, pointer, VERSION);
        if (failed != 0) {
            throw new IllegalStateException("there is no JNI");
        }
        return pointer.get(ADDRESS, 0);
    }

    // Ends where a class file is refused.
    static MemorySegment orRefused(MemorySegment jni, MemorySegment defined) throws Throwable {
        if (defined.address() == 0) {
            handle(jni, EXCEPTION_DESCRIBE, FunctionDescriptor.ofVoid(ADDRESS)).invokeExact(jni);
            System.exit(1);
        }
        return defined;
    }

    // Binds native methods. It is called in vain at first, so that Java has nothing left to make
    // ready between the two calls of a definer.
    private static MethodHandle register(MemorySegment jni) throws Throwable {
        FunctionDescriptor kind =
            FunctionDescriptor.of(JAVA_INT, ADDRESS, ADDRESS, ADDRESS, JAVA_INT);
        MethodHandle any = LINKER.downcallHandle(kind);
        MemorySegment none = MemorySegment.NULL;
        for (int turn = 0; turn < TURNS; turn++) {
            int version = (int) any.invokeExact(function(jni, GET_VERSION), jni, none, none, 0);
        }
        return MethodHandles.insertArguments(any, 0, function(jni, REGISTER_NATIVES));
    }

    // Defines a class and binds its native methods. It is one handle, since what JNI calls the
    // class by is good only until the next native method returns.
    private static MethodHandle definer(MemorySegment jni) throws Throwable {
        MethodHandle define = handle(jni, DEFINE_CLASS,
            FunctionDescriptor.of(ADDRESS, ADDRESS, ADDRESS, ADDRESS, ADDRESS, JAVA_INT));
        MethodType kind =
            MethodType.methodType(MemorySegment.class, MemorySegment.class, MemorySegment.class);
        MethodHandle refused = OWN.findStatic(Host.class, "orRefused", kind).bindTo(jni);
        MethodHandle defined = MethodHandles.filterReturnValue(define, refused);
        MethodHandle both = MethodHandles.collectArguments(register(jni), 1, defined);
        MemorySegment none = MemorySegment.NULL;
        return MethodHandles.insertArguments(both, 0, jni, jni, none, none);
    }

    // The C function of a channel. It is given JNI and the class too.
    private static MemorySegment channel(String name, String descriptor)
        throws ReflectiveOperationException {
        boolean isInput = descriptor.equals("()I");
        MethodHandle own = isInput
            ? OWN.findStatic(Host.class, "next", MethodType.methodType(int.class, String.class))
            : OWN.findStatic(
                Host.class, "put", MethodType.methodType(void.class, String.class, int.class));
        FunctionDescriptor kind = isInput
            ? FunctionDescriptor.of(JAVA_INT, ADDRESS, ADDRESS)
            : FunctionDescriptor.ofVoid(ADDRESS, ADDRESS, JAVA_INT);
        Class<?> dropped = MemorySegment.class;
        MethodHandle taken = MethodHandles.dropArguments(own.bindTo(name), 0, dropped, dropped);
        return LINKER.upcallStub(taken, kind, ARENA);
    }

    // Defines the class of these bytes, with its channels.
    private static void define(MethodHandle definer, String name, byte[] bytes) throws Throwable {
        List<MethodModel> channels = ClassFile.of().parse(bytes).methods().stream()
            .filter(it -> it.flags().has(AccessFlag.NATIVE)).toList();
        MemorySegment entries = ARENA.allocate(ADDRESS, 3 * channels.size() + 1);
        int place = 0;
        for (MethodModel it : channels) {
            String own = it.methodName().stringValue();
            String descriptor = it.methodType().stringValue();
            entries.setAtIndex(ADDRESS, place++, ARENA.allocateFrom(own));
            entries.setAtIndex(ADDRESS, place++, ARENA.allocateFrom(descriptor));
            entries.setAtIndex(ADDRESS, place++, channel(name + "." + own, descriptor));
        }
        MemorySegment copied = ARENA.allocateFrom(JAVA_BYTE, bytes);
        int failed = (int) definer.invokeExact(copied, bytes.length, entries, channels.size());
        if (failed != 0) {
            throw new IllegalStateException("no channels in " + name);
        }
    }

    // The class file of paragon/Locks, whose fields stand for locks.
    private static byte[] locks() {
        int flags = ClassFile.ACC_PUBLIC | ClassFile.ACC_STATIC;
        return ClassFile.of().build(ClassDesc.of("paragon.Locks"), it -> {
            it.withFlags(ClassFile.ACC_PUBLIC);
            for (int number = 0; number < LOCKS; number++) {
                it.withField("L" + number, ConstantDescs.CD_boolean, flags);
            }
        });
    }

    // Closes all locks.
    private static void close() throws ReflectiveOperationException {
        for (Field lock : Class.forName("paragon.Locks", true, null).getFields()) {
            lock.setBoolean(null, false);
        }
    }

    // Loads and links all class files of the folder.
    private static void load() throws Throwable {
        MethodHandle definer = definer(jni());
        define(definer, "paragon.Locks", locks());
        Queue<String> names = new ArrayDeque<>();
        try (var files = Files.newDirectoryStream(Path.of("."), "*.class")) {
            for (Path file : files) {
                String name = file.getFileName().toString().replace(".class", "");
                define(definer, name, Files.readAllBytes(file));
                names.add(name);
            }
        }
        for (String name : names) {
            Class.forName(name, true, null);
        }
    }

    private static void run(Method main) {
        String ending = "end";
        try {
            main.invoke(null);
        } catch (InvocationTargetException e) {
            ending = "uncaught " + e.getCause().getClass().getSimpleName();
        } catch (IllegalAccessException e) {
            throw new IllegalStateException(e);
        }
        TOLD.println(ending);
        TOLD.flush();
    }

    public static void main(String[] words) throws Throwable {
        load();
        for (int place = 0; place + 1 < words.length; place += 2) {
            Method main = Class.forName(words[place], true, null).getMethod("main");
            readInputs(Path.of(words[place + 1]));
            close();
            Thread thread = new Thread(null, () -> run(main), "main", STACK);
            thread.start();
            thread.join();
        }
    }
}
