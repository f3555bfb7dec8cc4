import java.io.IOException;
import java.nio.file.Files;
import java.nio.file.Path;
import java.util.stream.Collectors;
import java.util.stream.Stream;

/**
 * Tries what FaxPages.java has beside its own program: Tried check|copy|drawn FAX.tif LIBRARY [COPY.tif]. `check` prints
 * what `faxpages check` prints; `copy` writes what is left of a fax in MMR; `drawn` prints of each file in a folder its
 * name, and what `faxpages rows` and `faxpages salvage` print. tests/java/rows calls the class FaxPages17 for Java 17.
 */
final class Tried {
    private Tried() {
    }

    private static String line(FaxPages.Left left) {
        if (left instanceof FaxPages.Row row) {
            return "row " + row.page() + " " + row.number() + " "
                    + row.runs().stream().map(String::valueOf).collect(Collectors.joining(" "));
        }
        FaxPages.Lost lost = (FaxPages.Lost) left;
        return "lost " + lost.page() + (lost.rows() == 0 ? "" : " " + lost.first() + " " + lost.rows()) + " " + lost.fault();
    }

    private static void print(Iterable<? extends FaxPages.Left> found) {
        try {
            found.forEach(left -> System.out.println(line(left)));
            System.out.println("end");
        } catch (FaxPages.Fault fault) {
            System.out.println("fault " + fault.getMessage());
        }
    }

    private static void drawn(Path folder, String library) throws IOException {
        try (Stream<Path> files = Files.list(folder)) {
            for (Path path : files.sorted().toList()) {
                System.out.println(path.getFileName());
                FaxPages fax = FaxPages.open(path, library);
                print(fax.rows());
                print(fax.salvage());
            }
        }
    }

    public static void main(String[] words) throws IOException {
        if (words[0].equals("drawn")) {
            drawn(Path.of(words[1]), words[2]);
            return;
        }
        FaxPages fax = FaxPages.open(Path.of(words[1]), words[2]);
        if (words[0].equals("copy")) {
            Files.write(Path.of(words[3]), fax.salvaged(FaxPages.MMR));
            return;
        }
        FaxPages.Report report = fax.check();
        for (FaxPages.Note note : report.notes()) {
            String strip = note.strip() < 0 ? "" : " strip " + note.strip();
            System.out.println("note page " + note.page() + strip + ": " + note.name());
        }
        System.out.println("pages " + report.pages() + " rows " + report.rows());
        if (report.fault() != null) {
            FaxPages.Fault fault = report.fault();
            System.out.println("fault " + fault.getMessage());
            // The place and the rows before it are those that an iterator has.
            int rows = 0;
            try {
                for (FaxPages.Row row : fax.rows()) {
                    rows = row.page() == fault.page ? row.number() + 1 : 0;
                }
                System.exit(4);
            } catch (FaxPages.Fault again) {
                System.exit(again.page == fault.page && again.row == fault.row && again.number == fault.number
                        && (fault.number < 100 || rows == fault.row) ? 1 : 4);
            }
        }
    }
}
