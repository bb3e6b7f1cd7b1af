/* Judges a delivery by a rule text: java Judge.java LIBRARY MODEL DELIVERY RULES, where LIBRARY is libocl_check.so, by Java 22 or
 * newer. Its output and status are those of `ocl_check judge --text`. */
import static java.lang.foreign.ValueLayout.ADDRESS;
import static java.lang.foreign.ValueLayout.JAVA_BOOLEAN;
import static java.lang.foreign.ValueLayout.JAVA_BYTE;
import static java.lang.foreign.ValueLayout.JAVA_LONG;

import java.io.IOException;
import java.lang.foreign.Arena;
import java.lang.foreign.FunctionDescriptor;
import java.lang.foreign.Linker;
import java.lang.foreign.MemorySegment;
import java.lang.foreign.SymbolLookup;
import java.lang.invoke.MethodHandle;
import java.nio.file.Files;
import java.nio.file.Path;

public class Judge {
    static final long MAX_BUDGET = Long.MAX_VALUE;

    /** The report on a delivery, or the line of a refusal, with its status. */
    record Answer(byte[] report, int status) {}

    private final MethodHandle judge;

    /** The function of a library that is there as long as the arena. */
    Judge(Path library, Arena arena) {
        // uint8_t ocl_check_judge(model, its length, delivery, .., rules, .., is_text, budget, out, its length, wants)
        FunctionDescriptor type = FunctionDescriptor.of(
                JAVA_BYTE, ADDRESS, JAVA_LONG, ADDRESS, JAVA_LONG, ADDRESS, JAVA_LONG, JAVA_BOOLEAN, JAVA_LONG, ADDRESS, JAVA_LONG, ADDRESS);
        MemorySegment function = SymbolLookup.libraryLookup(library, arena).find("ocl_check_judge").orElseThrow();
        judge = Linker.nativeLinker().downcallHandle(function, type);
    }

    /** Bytes where C reads them. The pointer isn't null, also where there are none. */
    private static MemorySegment lend(Arena arena, byte[] bytes) {
        MemorySegment lent = arena.allocate(bytes.length + 1L);
        MemorySegment.copy(bytes, 0, lent, JAVA_BYTE, 0, bytes.length);
        return lent;
    }

    Answer judge(byte[] model, byte[] delivery, byte[] rules) throws Throwable {
        for (long room = 4096;;) {
            try (Arena arena = Arena.ofConfined()) {
                MemorySegment out = arena.allocate(room), wants = arena.allocate(JAVA_LONG);
                byte status = (byte) judge.invokeExact(
                        lend(arena, model), (long) model.length, lend(arena, delivery), (long) delivery.length,
                        lend(arena, rules), (long) rules.length, true, MAX_BUDGET, out, room, wants);
                long length = wants.get(JAVA_LONG, 0);
                if (length <= room) {
                    return new Answer(out.asSlice(0, length).toArray(JAVA_BYTE), status);
                }
                room = length;
            }
        }
    }

    private static byte[] read(String path) throws IOException {
        return Files.readAllBytes(Path.of(path));
    }

    public static void main(String[] words) throws Throwable {
        if (words.length != 4) {
            System.err.println("usage: java Judge.java LIBRARY MODEL DELIVERY RULES");
            System.exit(2);
        }
        Answer answer;
        try (Arena arena = Arena.ofConfined()) {
            answer = new Judge(Path.of(words[0]), arena).judge(read(words[1]), read(words[2]), read(words[3]));
        }
        System.out.write(answer.report());
        System.out.flush();
        System.exit(answer.status());
    }
}
