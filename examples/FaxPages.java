import static java.lang.foreign.ValueLayout.ADDRESS;
import static java.lang.foreign.ValueLayout.JAVA_INT;
import static java.lang.foreign.ValueLayout.JAVA_LONG;

import java.io.IOException;
import java.lang.foreign.Arena;
import java.lang.foreign.FunctionDescriptor;
import java.lang.foreign.Linker;
import java.lang.foreign.MemoryLayout;
import java.lang.foreign.MemorySegment;
import java.lang.foreign.SymbolLookup;
import java.lang.invoke.MethodHandle;
import java.nio.ByteBuffer;
import java.nio.ByteOrder;
import java.nio.charset.StandardCharsets;
import java.nio.file.Files;
import java.nio.file.Path;
import java.util.ArrayDeque;
import java.util.ArrayList;
import java.util.Arrays;
import java.util.HashMap;
import java.util.Iterator;
import java.util.List;
import java.util.Map;
import java.util.NoSuchElementException;

/**
 * The rows of a fax, a check and what is left of damaged pages, through the library for C, by Java 22 or later on a
 * machine of 64 bits: copy it into your program. FaxPages17.java is the same for Java 17.
 *
 * As a program it prints the rows of a fax by their runs, as `faxpages rows` does, or what is left of it as `faxpages
 * salvage` does: java --enable-native-access=ALL-UNNAMED FaxPages.java rows|salvage FAX.tif [LIBRARY]
 *
 * Status: 0 all rows were read; 1 one could not be, which is said, and those before it are right; 2 the usage is printed.
 */
public final class FaxPages {
    /** The calls of the library, by their names. */
    private static final class Calls {
        private final Map<String, MethodHandle> handles = new HashMap<>();
        private final SymbolLookup calls;

        Calls(String library) {
            calls = SymbolLookup.libraryLookup(library == null ? "libfaxpages.so.1" : library, Arena.global());
        }

        /** Calls with buffers, sizes and numbers, and answers what the call returns. */
        int call(String name, Object... words) {
            Object[] given = Arrays.stream(words)
                    .map(it -> it instanceof ByteBuffer buffer ? MemorySegment.ofBuffer(buffer) : it).toArray();
            try {
                return (int) handles.computeIfAbsent(name, it -> handle(it, given)).invokeWithArguments(given);
            } catch (Throwable impossible) {
                throw new IllegalStateException(impossible);
            }
        }

        private MethodHandle handle(String name, Object[] words) {
            MemoryLayout[] layouts = Arrays.stream(words)
                    .map(it -> it instanceof Long ? JAVA_LONG : it instanceof Integer ? JAVA_INT : ADDRESS)
                    .toArray(MemoryLayout[]::new);
            MemorySegment call = calls.find(name).orElseThrow();
            return Linker.nativeLinker().downcallHandle(call, FunctionDescriptor.of(JAVA_INT, layouts));
        }
    }

    // What follows is the same in FaxPages17.java, but for the names of the class.

    /** What is left of a page: a row that is found, or rows that are lost. */
    public sealed interface Left permits Row, Lost {
    }

    /** A row, packed: the highest bit of a byte first, 1 for black, with zeros after the last pel. */
    public record Row(int page, int number, int width, byte[] packed) implements Left {
        /** The lengths in pels of its runs, white first: the first is 0 where it begins black. */
        public List<Integer> runs() {
            List<Integer> runs = new ArrayList<>();
            int begin = 0;
            for (int pel = 0, black = 0; pel < width; pel++) {
                if ((packed[pel / 8] >> (7 - pel % 8) & 1) != black) {
                    runs.add(pel - begin);
                    black ^= 1;
                    begin = pel;
                }
            }
            runs.add(width - begin);
            return runs;
        }
    }

    /** Rows of a page that are lost, one after another, and why the first of them is; of a page that is refused none. */
    public record Lost(int page, int first, int rows, String fault) implements Left {
    }

    /** A note on a strip of a page, or on its directory, where the strip is -1. */
    public record Note(int page, int strip, String name) {
    }

    /** What a check found up to the first fault, which is null where the file is sound. */
    public record Report(long pages, long rows, List<Note> notes, Fault fault) {
    }

    /** Why no more can be read: a fault of the file, with its place, or a status of the library. */
    public static final class Fault extends RuntimeException {
        private static final long serialVersionUID = 1;
        public final int page, row, number, tag;

        private Fault(String text, int page, int row, int number, int tag) {
            super(text);
            this.page = page;
            this.row = row;
            this.number = number;
            this.tag = tag;
        }
    }

    /** The codings of pages that are written. */
    public static final int MH = 1, MR = 2, MMR = 3;

    // Numbers of faxpages.h, and where the members of its structs stand, as docs/STRUCTS.md has them.
    private static final int DONE = 0, END = 1, FAULT = 2, OUTSIDE = 3, NO_ROOM = 5, MOST_RUNS = 65536;
    private static final int ROW_BYTES = 24, LOST_BYTES = 12, NOTE_BYTES = 12, FORM_BYTES = 52;
    private static final int ROWS = 4096, STRETCHES = 64, ROOM = 1 << 20;

    private final Calls calls;
    private final ByteBuffer file;

    private FaxPages(byte[] bytes, String library) {
        calls = new Calls(library);
        // No pointer may be null, so an empty file has a byte too.
        file = buffer(bytes.length + 1).put(bytes).flip();
    }

    /** The fax of a file, which is read whole, by the library that the system finds. */
    public static FaxPages open(Path path) throws IOException {
        return open(path, null);
    }

    /** The fax of a file, which is read whole, by a library, or by the one that the system finds, where it is null. */
    public static FaxPages open(Path path, String library) throws IOException {
        return new FaxPages(Files.readAllBytes(path), library);
    }

    private static ByteBuffer buffer(int bytes) {
        return ByteBuffer.allocateDirect(bytes).order(ByteOrder.nativeOrder());
    }

    /** A call over the file. */
    private int call(String name, Object... words) {
        Object[] all = new Object[words.length + 2];
        all[0] = file.duplicate().limit(Math.max(1, file.limit()));
        all[1] = (long) file.limit();
        System.arraycopy(words, 0, all, 2, words.length);
        return calls.call(name, all);
    }

    private String name(String call, String what, int number) {
        ByteBuffer name = buffer(64);
        int len = calls.call(call, number, name, 64L);
        return len == 0 || len > 64 ? what + number : StandardCharsets.US_ASCII.decode(name.limit(len)).toString();
    }

    private String nameOf(int fault) {
        return name("faxpages_fault_name", "Unknown ", fault);
    }

    /** The fault of a status, by the struct faxpages_fault at a place. */
    private Fault fault(int status, ByteBuffer told, int at) {
        int number = told.getInt(at), tag = told.getInt(at + 4), page = told.getInt(at + 8), row = told.getInt(at + 12);
        if (status != FAULT) {
            return new Fault("status " + status, 0, 0, 0, 0);
        }
        String text = "page " + page + " row " + row + ": " + nameOf(number) + (tag == 0 ? "" : " " + tag);
        return new Fault(text, page, row, number, tag);
    }

    /** Items that are read some at a time. */
    private abstract static class Ahead<T> implements Iterator<T> {
        final ArrayDeque<T> ready = new ArrayDeque<>();
        final ByteBuffer place = buffer(16), runs = buffer(4 * MOST_RUNS), out = buffer(ROOM), told = buffer(40);
        boolean isEnded;

        /** Reads more items, or ends. */
        abstract void read();

        @Override
        public boolean hasNext() {
            while (ready.isEmpty() && !isEnded) {
                read();
            }
            return !ready.isEmpty();
        }

        @Override
        public T next() {
            if (!hasNext()) {
                throw new NoSuchElementException();
            }
            return ready.remove();
        }

        byte[] packed(int at, int len) {
            byte[] packed = new byte[len];
            out.get(at, packed);
            return packed;
        }
    }

    /** All rows, page by page. After those before a fault it is thrown. */
    public Iterable<Row> rows() {
        return () -> new Ahead<>() {
            private final ByteBuffer rows = buffer(ROW_BYTES * ROWS);
            private Fault fault;

            @Override
            void read() {
                if (fault != null) {
                    throw fault;
                }
                int status = call("faxpages_rows_from", place, runs, (long) MOST_RUNS, rows, (long) ROWS, out, (long) ROOM,
                        told);
                for (int row = 0; row < told.getLong(0) * ROW_BYTES; row += ROW_BYTES) {
                    byte[] packed = packed((int) rows.getLong(row), rows.getInt(row + 8));
                    ready.add(new Row(rows.getInt(row + 12), rows.getInt(row + 16), rows.getInt(row + 20), packed));
                }
                isEnded = status == END;
                fault = status == END || status == DONE || status == NO_ROOM ? null : fault(status, told, 24);
            }
        };
    }

    /** What is left of all pages, however they are damaged, from the top down. A page that is refused is one loss. */
    public Iterable<Left> salvage() {
        return () -> new Ahead<>() {
            private final ByteBuffer form = buffer(FORM_BYTES), lost = buffer(LOST_BYTES * STRETCHES);
            private int page = -1, row, width, status = END;

            @Override
            void read() {
                if (status != DONE) {
                    nextPage();
                    return;
                }
                int stride = (width + 7) / 8;
                status = call("faxpages_salvage_from", place, runs, (long) MOST_RUNS, out, (long) ROOM / stride * stride,
                        (long) stride, lost, (long) STRETCHES, told);
                if (status != DONE && status != END) {
                    throw fault(status, told, 24);
                }
                long found = told.getLong(0), stretches = told.getLong(8) * LOST_BYTES;
                for (int at = 0, given = 0; at < stretches || given < found;) {
                    if (at < stretches && lost.getInt(at) == row) {
                        ready.add(new Lost(page, row, lost.getInt(at + 4), nameOf(lost.getInt(at + 8))));
                        row += lost.getInt(at + 4);
                        at += LOST_BYTES;
                    } else {
                        ready.add(new Row(page, row++, width, packed(stride * given++, stride)));
                    }
                }
            }

            private void nextPage() {
                status = call("faxpages_forms", ++page, form, 1L, told);
                place.putInt(0, page).putInt(4, 0).putInt(8, 0).putInt(12, 0);
                row = 0;
                if (told.getLong(0) == 1) {
                    status = DONE;
                    width = form.getInt(0);
                } else if (status == FAULT && told.getInt(32) == page) {
                    ready.add(new Lost(page, 0, 0, fault(status, told, 24).getMessage().replaceFirst("^.*: ", "")));
                } else {
                    // What stands before all later pages was told at the first of them.
                    isEnded = true;
                }
            }
        };
    }

    /** Reads all rows up to the first fault, and reports on the file. */
    public Report check() {
        ByteBuffer report = buffer(40);
        for (int room = 64;; room = (int) report.getLong(16)) {
            ByteBuffer notes = buffer(NOTE_BYTES * room);
            int status = call("faxpages_check", notes, (long) room, report);
            if (status != END && status != FAULT) {
                throw fault(status, report, 24);
            }
            if (report.getLong(16) <= room) {
                List<Note> found = new ArrayList<>();
                for (int at = 0; at < report.getLong(16) * NOTE_BYTES; at += NOTE_BYTES) {
                    String name = name("faxpages_note_name", "note ", notes.getInt(at + 8));
                    found.add(new Note(notes.getInt(at), notes.getInt(at + 4), name));
                }
                Fault fault = status == END ? null : fault(status, report, 24);
                return new Report(report.getLong(0), report.getLong(8), found, fault);
            }
        }
    }

    /** Writes what is left of the pages in a coding, where rows that are lost are white. */
    public byte[] salvaged(int coding) {
        // struct faxpages_written: how many bytes, the place of a link, all pages (0 where that is unknown), those so far.
        ByteBuffer written = buffer(24), form = buffer(FORM_BYTES), told = buffer(40), copy = buffer(ROOM);
        for (int page = 0;; page++) {
            int status = call("faxpages_forms", page, form, 1L, told);
            if (told.getLong(0) == 0 && (status != FAULT || told.getInt(32) < page)) {
                break;
            }
            if (told.getLong(0) == 1) {
                copy = add(written, form, page, coding, copy);
            }
        }
        int status = calls.call("faxpages_end_pages", copy, (long) copy.capacity(), written);
        if (status != DONE) {
            throw new Fault("status " + status, 0, 0, 0, 0);
        }
        byte[] bytes = new byte[(int) written.getLong(0)];
        copy.get(0, bytes);
        return bytes;
    }

    /** Adds what is left of a page of this form to a copy, and answers the copy, which may be a larger one. */
    private ByteBuffer add(ByteBuffer written, ByteBuffer form, int page, int coding, ByteBuffer copy) {
        int stride = (form.getInt(0) + 7) / 8, rows = form.getInt(4), raster = Math.multiplyExact(rows, stride);
        ByteBuffer out = buffer(raster), lost = buffer(LOST_BYTES * (rows / 2 + 1)), told = buffer(40);
        int status = call("faxpages_salvage", page, form, out, (long) raster, (long) stride, lost, (long) rows / 2 + 1,
                told);
        if (status != DONE) {
            throw fault(status, told, 24);
        }
        // In the coding, with no aligned EOLs, and black as black, in one strip.
        form.putInt(8, coding).putInt(16, 0).putInt(20, 0).putInt(24, rows).putInt(28, 1);
        do {
            status = calls.call("faxpages_add_page", form, 4, out, (long) raster, (long) stride, copy,
                    (long) copy.capacity(), written);
            if (status == NO_ROOM) {
                copy = buffer(2 * copy.capacity()).put(copy.clear()).clear();
            }
        } while (status == NO_ROOM);
        if (status != DONE) {
            throw new Fault("status " + status, 0, 0, 0, 0);
        }
        return copy;
    }

    private static String line(Left left) {
        if (left instanceof Row row) {
            String runs = row.runs().toString().replaceAll("[\\[, \\]]+", " ").stripTrailing();
            return "row " + row.page() + " " + row.number() + runs;
        }
        Lost lost = (Lost) left;
        String rows = lost.rows() == 0 ? " " : " " + lost.first() + " " + lost.rows() + " ";
        return "lost " + lost.page() + rows + lost.fault();
    }

    public static void main(String[] words) throws IOException {
        if (words.length < 2 || words.length > 3 || !List.of("rows", "salvage").contains(words[0])) {
            System.err.println("usage: FaxPages rows|salvage FAX.tif [LIBRARY]");
            System.exit(2);
        }
        FaxPages fax = open(Path.of(words[1]), words.length == 3 ? words[2] : null);
        int status = 0;
        try {
            for (Left left : words[0].equals("rows") ? fax.rows() : fax.salvage()) {
                status = left instanceof Lost ? 1 : status;
                System.out.println(line(left));
            }
            System.out.println("end");
        } catch (Fault fault) {
            System.out.println("fault " + fault.getMessage());
            status = 1;
        }
        System.exit(status);
    }
}
