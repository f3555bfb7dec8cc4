// Prints the rows of a fax, and which are lost, and writes what is left of it in MMR: left FAX.tif COPY.tif
package main

import "fmt"
import "os"
import faxpages "ironminnow.example/faxpages/go"

func main() {
	fax, err := faxpages.Open(os.Args[1])
	file, _ := os.Create(os.Args[2])
	copied := faxpages.NewWriter(file)
	for page := 0; err == nil; page++ {
		left, wrong := fax.Salvage(page)
		for row := 0; wrong == nil && row < left.Rows; row++ {
			fmt.Println("row", page, row, left.IsLost(row))
		}
		if err = wrong; err == nil {
			fmt.Println("lost", page, left.Lost)
			left.Form.Coding = faxpages.MMR
			err = copied.Add(left)
		}
	}
	if err != faxpages.ErrOutside || copied.Close() != nil {
		panic(err)
	}
}
