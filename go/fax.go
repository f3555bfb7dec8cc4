// Package faxpages reads, checks, converts and writes fax pages in TIFF-F files, through the proved library for C.
//
//	fax, err := faxpages.Open("fax.tif")
//	if err != nil {
//		return err
//	}
//	for row, err := range fax.Rows() { // Go 1.23; before, call fax.Rows() with the body of the loop
//		if err != nil {
//			return err
//		}
//		fmt.Println(row.Page, row.Number, row.Runs())
//	}
//
// Pages and rows are numbered from 0. What comes before an error is right; an iterator returns the error last.
// Nothing is kept open, and a Fax may be read by many goroutines.
package faxpages

/*
#cgo pkg-config: faxpages
#include <faxpages.h>
*/
import "C"

import (
	"os"
	"unsafe"
)

// Seq yields items, and as its last one an error if there is one. It has the form of iter.Seq2[T, error].
type Seq[T any] func(yield func(T, error) bool)

// Fax is a file of fax pages.
type Fax struct{ file []byte }

// New is the fax of these bytes, which have to stay as they are. Nothing is read yet.
func New(file []byte) Fax { return Fax{file} }

// Open is the fax of a file, which is read whole.
func Open(name string) (Fax, error) {
	file, err := os.ReadFile(name)
	return Fax{file}, err
}

// Coding says how rows are coded.
type Coding uint32

// The codings: T.4 one-dimensional, T.4 two-dimensional, and T.6.
const (
	MH Coding = iota + 1
	MR
	MMR
)

// FillOrder says which bit of a byte is first.
type FillOrder uint32

// The orders of TIFF: the highest bit first, and the lowest.
const (
	MSBFirst FillOrder = iota + 1
	LSBFirst
)

// Ratio is a resolution in pels of a unit.
type Ratio struct{ Numerator, Denominator uint32 }

// Form is the form of a page.
type Form struct {
	Page         int
	Width, Rows  int
	Coding       Coding
	Order        FillOrder
	Aligned      bool // each EOL ends on a byte
	Exchanged    bool // black is coded as white, and white as black
	RowsPerStrip int
	Strips       int
	X, Y         Ratio
	Unit         int // 1 none, 2 inch, 3 centimetre
}

// Stride is how many bytes a packed row has.
func (f Form) Stride() int { return (f.Width + 7) / 8 }

func formOf(page int, it *C.struct_faxpages_form) Form {
	return Form{page, int(it.width), int(it.rows), Coding(it.coding), FillOrder(it.order), it.aligned == 1,
		it.exchanged == 1, int(it.rows_per_strip), int(it.strips),
		Ratio{uint32(it.x_numerator), uint32(it.x_denominator)},
		Ratio{uint32(it.y_numerator), uint32(it.y_denominator)}, int(it.unit)}
}

// Memory that a call does not look at stands where there is none: no pointer may be null.
var nothing [8]byte

func bytesOf(bytes []byte) (*C.uint8_t, C.size_t) {
	if len(bytes) == 0 {
		return (*C.uint8_t)(&nothing[0]), 0
	}
	return (*C.uint8_t)(&bytes[0]), C.size_t(len(bytes))
}

// Forms are the forms of the pages.
func (f Fax) Forms() Seq[Form] {
	return func(yield func(Form, error) bool) {
		file, length := bytesOf(f.file)
		for page := 0; ; {
			var forms [256]C.struct_faxpages_form
			var told C.struct_faxpages_told
			status := C.faxpages_forms(file, length, C.uint32_t(page), &forms[0], C.size_t(len(forms)), &told)
			for i := 0; i < int(told.count); i++ {
				if !yield(formOf(page+i, &forms[i]), nil) {
					return
				}
			}
			page += int(told.count)
			if status == C.FAXPAGES_DONE {
				continue
			}
			if err := errorOf(status, &told.fault); err != nil {
				yield(Form{Page: page}, err)
			}
			return
		}
	}
}

// Form is the form of a page.
func (f Fax) Form(page int) (Form, error) {
	var form C.struct_faxpages_form
	var told C.struct_faxpages_told
	if page < 0 {
		return Form{}, ErrOutside
	}
	file, length := bytesOf(f.file)
	status := C.faxpages_forms(file, length, C.uint32_t(page), &form, 1, &told)
	if told.count == 0 && status == C.FAXPAGES_END {
		return Form{}, ErrOutside
	}
	if told.count == 0 {
		return Form{}, errorOf(status, &told.fault)
	}
	return formOf(page, &form), nil
}

// Row is a row, packed: the highest bit of a byte first, 1 for black, with zeros after the last pel.
type Row struct {
	Page, Number, Width int
	Packed              []byte
}

// IsBlack says whether a pel, from 0, is black.
func (r Row) IsBlack(pel int) bool { return r.Packed[pel/8]>>(7-pel%8)&1 == 1 }

// Runs are the lengths in pels of the row's runs, white first: the first is 0 where the row begins black.
func (r Row) Runs() []int {
	runs, black, begin := make([]int, 0, 16), false, 0
	for pel := 0; pel < r.Width; pel++ {
		// Eight pels of one colour go by at once.
		if pel%8 == 0 && pel+8 <= r.Width && (r.Packed[pel/8] == 0 && !black || r.Packed[pel/8] == 0xFF && black) {
			pel += 7
		} else if r.IsBlack(pel) != black {
			runs, black, begin = append(runs, pel-begin), !black, pel
		}
	}
	return append(runs, r.Width-begin)
}

// RowRuns is a row by its runs: their lengths in pels, white first.
type RowRuns struct {
	Page, Number, Width int
	Runs                []uint32
}

// How many rows are read at a time, and how many numbers of them.
const (
	rowsAtOnce    = 4096
	numbersAtOnce = 1 << 18
)

type place struct {
	at   C.struct_faxpages_place
	runs []C.uint32_t
}

// Reads all rows from a page and a row on: call returns some, and put takes each, and says whether to continue.
func read(page, row int, call func(*place, []C.struct_faxpages_row, *C.struct_faxpages_told) C.uint32_t,
	put func(C.struct_faxpages_row) bool) error {
	if page < 0 || row < 0 {
		return ErrOutside
	}
	from := place{runs: make([]C.uint32_t, C.FAXPAGES_RUNS)}
	from.at.page, from.at.row = C.uint32_t(page), C.uint32_t(row)
	table := make([]C.struct_faxpages_row, rowsAtOnce)
	for {
		var told C.struct_faxpages_told
		status := call(&from, table, &told)
		for _, it := range table[:told.count] {
			if !put(it) {
				return nil
			}
		}
		if status != C.FAXPAGES_DONE && status != C.FAXPAGES_NO_ROOM {
			return errorOf(status, &told.fault)
		}
	}
}

// Rows are all rows, page by page.
func (f Fax) Rows() Seq[Row] { return f.RowsFrom(0, 0) }

// RowsFrom are the rows from a row of a page on.
func (f Fax) RowsFrom(page, row int) Seq[Row] {
	return func(yield func(Row, error) bool) {
		out, goesOn := make([]byte, numbersAtOnce), true
		file, length := bytesOf(f.file)
		err := read(page, row, func(from *place, rows []C.struct_faxpages_row, told *C.struct_faxpages_told) C.uint32_t {
			return C.faxpages_rows_from(file, length, &from.at, &from.runs[0], C.size_t(len(from.runs)),
				&rows[0], C.size_t(len(rows)), (*C.uint8_t)(&out[0]), C.size_t(len(out)), told)
		}, func(it C.struct_faxpages_row) bool {
			packed := append([]byte(nil), out[it.at:it.at+C.size_t(it.len)]...)
			goesOn = yield(Row{int(it.page), int(it.row), int(it.width), packed}, nil)
			return goesOn
		})
		if err != nil && goesOn {
			yield(Row{}, err)
		}
	}
}

// Runs are all rows by their runs, page by page.
func (f Fax) Runs() Seq[RowRuns] {
	return func(yield func(RowRuns, error) bool) {
		out, goesOn := make([]uint32, numbersAtOnce), true
		file, length := bytesOf(f.file)
		err := read(0, 0, func(from *place, rows []C.struct_faxpages_row, told *C.struct_faxpages_told) C.uint32_t {
			return C.faxpages_runs_from(file, length, &from.at, &from.runs[0], C.size_t(len(from.runs)),
				&rows[0], C.size_t(len(rows)), (*C.uint32_t)(unsafe.Pointer(&out[0])), C.size_t(len(out)), told)
		}, func(it C.struct_faxpages_row) bool {
			runs := append([]uint32(nil), out[it.at:it.at+C.size_t(it.len)]...)
			goesOn = yield(RowRuns{int(it.page), int(it.row), int(it.width), runs}, nil)
			return goesOn
		})
		if err != nil && goesOn {
			yield(RowRuns{}, err)
		}
	}
}
