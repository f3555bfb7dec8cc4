// Reads files from the standard input, each after its length (four bytes, the lowest first), through the module for Go,
// and prints a line for each: how its rows ended, and a sum of all that the module says of it. drawn.c does the same
// by the calls.
package main

import (
	"bufio"
	"encoding/binary"
	"errors"
	"fmt"
	"io"
	"log"
	"os"

	faxpages "ironminnow.example/faxpages/go"
)

var sum uint32

func add(numbers ...int) {
	for _, number := range numbers {
		sum = (sum ^ uint32(number)) * 16777619
	}
}

func addBytes(bytes []byte) {
	add(len(bytes))
	for _, it := range bytes {
		sum = (sum ^ uint32(it)) * 16777619
	}
}

// An error, and 1 where there is none, 2 at a fault.
func addError(err error) int {
	var fault *faxpages.Fault
	statuses := map[error]int{nil: 1, faxpages.ErrOutside: 3, faxpages.ErrMemory: 4, faxpages.ErrOptions: 7,
		faxpages.ErrTooLarge: 8}
	if errors.As(err, &fault) {
		add(2, int(fault.Number), int(fault.Tag), fault.Page, fault.Row)
		return 2
	}
	add(statuses[err])
	return statuses[err]
}

func bit(is bool) int {
	if is {
		return 1
	}
	return 0
}

func addForms(fax faxpages.Fax) {
	fax.Forms()(func(it faxpages.Form, err error) bool {
		if err == nil {
			add(it.Page, it.Width, it.Rows, int(it.Coding), int(it.Order), bit(it.Aligned), bit(it.Exchanged),
				it.RowsPerStrip, it.Strips, int(it.X.Numerator), int(it.X.Denominator), int(it.Y.Numerator),
				int(it.Y.Denominator), it.Unit)
		} else {
			addError(err)
		}
		return true
	})
}

func addRows(rows faxpages.Seq[faxpages.Row]) int {
	var last error
	rows(func(row faxpages.Row, err error) bool {
		if last = err; err == nil {
			add(row.Page, row.Number, row.Width)
			addBytes(row.Packed)
			if row.Number%5 == 0 {
				add(row.Runs()...)
			}
		}
		return true
	})
	return addError(last)
}

func addRuns(fax faxpages.Fax) {
	var last error
	fax.Runs()(func(row faxpages.RowRuns, err error) bool {
		if last = err; err == nil {
			add(row.Page, row.Number, row.Width)
			for _, run := range row.Runs {
				add(int(run))
			}
		}
		return true
	})
	addError(last)
}

func addSalvaged(left *faxpages.Salvaged, err error) {
	if left != nil {
		add(left.Rows)
		addBytes(left.Packed)
		for _, it := range left.Lost {
			add(it.First, it.Rows, int(it.Fault))
		}
		add(int(left.End))
	}
	addError(err)
}

func addPages(fax faxpages.Fax) {
	for page := 0; page < 3; page++ {
		found, err := fax.Page(page)
		if found != nil {
			add(found.Rows)
			addBytes(found.Packed)
		}
		addError(err)
		addSalvaged(fax.Salvage(page))
		counted, err := fax.Received(page)
		add(counted.BadRows, counted.Clean, counted.Consecutive)
		addError(err)
	}
	report, err := fax.Check()
	add(report.Pages, report.Rows, len(report.Notes))
	for _, it := range report.Notes {
		add(it.Page, it.Strip, int(it.Kind))
	}
	if report.Fault != nil {
		addError(report.Fault)
	}
	addError(err)
}

func addConverted(file []byte, number int) {
	for target := faxpages.ToPBM; target <= faxpages.ToMMR; target++ {
		options := faxpages.Options{Target: target, Order: faxpages.FillOrder(1 + number%2),
			K: 1 + number%4, Strip: number % 3, Aligned: target%3 != 0 && number/2%2 == 1}
		made, err := faxpages.Convert(file, options)
		addBytes(made)
		addError(err)
		made, err = faxpages.New(file).SalvagedFile(options)
		addBytes(made)
		addError(err)
	}
}

func addStrip(file []byte, number int) {
	form := faxpages.StripForm{Width: 1 + number%97, Rows: number % 5, Coding: faxpages.Coding(1 + number%3),
		Order: faxpages.FillOrder(1 + number/3%2)}
	if len(file) > 8 {
		file = file[8:]
	}
	addRows(faxpages.Strip(file, form))
	addSalvaged(faxpages.SalvageStrip(file, form))
	raster := faxpages.Raster{Width: form.Width, Rows: len(file) / ((form.Width + 7) / 8), Packed: file}
	strip, err := faxpages.Code(&raster, form.Coding, form.Order, 1+number%4)
	addBytes(strip)
	addError(err)
}

func main() {
	in, head := bufio.NewReader(os.Stdin), make([]byte, 4)
	for number := 0; ; number++ {
		if _, err := io.ReadFull(in, head); err == io.EOF {
			return
		} else if err != nil {
			log.Fatal(err)
		}
		file := make([]byte, binary.LittleEndian.Uint32(head))
		if _, err := io.ReadFull(in, file); err != nil {
			log.Fatal(err)
		}
		sum = 2166136261
		fax := faxpages.New(file)
		status := addRows(fax.Rows())
		addRuns(fax)
		addForms(fax)
		addPages(fax)
		addConverted(file, number)
		addStrip(file, number)
		fmt.Printf("%d %08x\n", status, sum)
	}
}
