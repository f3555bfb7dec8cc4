// What the module for Go says of a library as a later version may be: tests/library/later makes it.
package main

import (
	"fmt"
	"os"

	faxpages "ironminnow.example/faxpages/go"
)

func main() {
	fax, err := faxpages.Open(os.Args[1])
	if err != nil {
		panic(err)
	}
	report, err := fax.Check()
	fmt.Println("check", report.Pages, report.Notes, report.Fault, err)
	_, err = fax.Page(0)
	fmt.Println("page", err)
	fax.Rows()(func(row faxpages.Row, err error) bool {
		fmt.Println("row", row.Number, err)
		return true
	})
	_, err = faxpages.Convert([]byte("P4\n8 1\n\x00"), faxpages.Options{Target: faxpages.ToMMR})
	fmt.Println("convert", err)
	_, err = fax.SalvagedFile(faxpages.Options{Target: faxpages.ToMMR})
	fmt.Println("salvage", err)
}
