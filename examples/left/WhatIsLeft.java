import java.io.IOException;
import java.nio.file.Files;
import java.nio.file.Path;

/** Prints the rows of a fax that are found and those that are lost, and writes a copy in MMR: WhatIsLeft FAX.tif COPY.tif */
final class WhatIsLeft {
    public static void main(String[] words) throws IOException {
        FaxPages fax = FaxPages.open(Path.of(words[0]));
        for (FaxPages.Left left : fax.salvage()) {
            if (left instanceof FaxPages.Row row) {
                System.out.println("row " + row.page() + " " + row.number());
            } else if (left instanceof FaxPages.Lost lost) {
                System.out.println("lost " + lost.page() + " " + lost.first() + " " + lost.rows() + " " + lost.fault());
            }
        }
        Files.write(Path.of(words[1]), fax.salvaged(FaxPages.MMR));
    }
}
