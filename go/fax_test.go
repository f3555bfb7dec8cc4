package faxpages_test

import (
	"bytes"
	"errors"
	"fmt"
	"image"
	"image/color"
	"io"
	"os"
	"reflect"
	"testing"
	"testing/iotest"

	faxpages "ironminnow.example/faxpages/go"
)

func Example() {
	fax, _ := faxpages.Open("../samples/three-mmr-rows.tif")
	fax.Rows()(func(row faxpages.Row, err error) bool {
		fmt.Println(row.Page, row.Number, row.Runs(), err)
		return true
	})
	// Output:
	// 0 0 [3 2 3] <nil>
	// 0 1 [0 6 2] <nil>
	// 0 2 [8] <nil>
}

func ExampleFault() {
	fax, _ := faxpages.Open("../samples/damaged-fourth-page.tif")
	page, err := fax.Page(3)
	var fault *faxpages.Fault
	fmt.Println(page.Rows, err, errors.As(err, &fault) && fault.Number == faxpages.OutOfRow)
	left, err := fax.Salvage(3)
	fmt.Println(left.Rows, left.Lost, err)
	_, err = fax.Page(9)
	fmt.Println(errors.Is(err, faxpages.ErrOutside), faxpages.EndMarker)
	// Output:
	// 5 page 3 row 5: OutOfRow true
	// 11 [{5 6 OutOfRow}] <nil>
	// true EndMarker
}

// A loop may end before the rows do, and then nothing more is handed out.
func TestEarlyEnd(t *testing.T) {
	fax, err := faxpages.Open("../samples/damaged-fourth-page.tif")
	if err != nil {
		t.Fatal(err)
	}
	for most := 1; most < 40; most++ {
		count := 0
		fax.Rows()(func(row faxpages.Row, err error) bool {
			count++
			return err == nil && count < most
		})
		if count > most {
			t.Fatalf("%d items, and %d were wanted", count, most)
		}
	}
}

func TestImage(t *testing.T) {
	fax, _ := faxpages.Open("../samples/three-mmr-rows.tif")
	page, err := fax.Page(0)
	if err != nil {
		t.Fatal(err)
	}
	var shown image.Image = page
	black := 0
	for y := 0; y < 3; y++ {
		for x := 0; x < 8; x++ {
			if shown.At(x, y) == (color.Gray{Y: 0}) {
				black++
			}
		}
	}
	if shown.Bounds() != image.Rect(0, 0, 8, 3) || black != 8 || shown.At(8, 0) != (color.Gray{Y: 255}) {
		t.Fatal(shown.Bounds(), black)
	}
}

// What is written is read again; a strip is coded and read.
func TestWritten(t *testing.T) {
	raster := faxpages.Raster{Width: 8, Rows: 2, Packed: []byte{0x18, 0xFC}}
	form := faxpages.Form{Width: 8, Rows: 2, Coding: faxpages.MMR, Order: faxpages.MSBFirst,
		X: faxpages.Ratio{Numerator: 204, Denominator: 1}, Y: faxpages.Ratio{Numerator: 98, Denominator: 1}, Unit: 2}
	file, err := faxpages.Write([]*faxpages.Page{{Form: form, Raster: raster}, {Form: form, Raster: raster}}, 4)
	if err != nil {
		t.Fatal(err)
	}
	page, err := faxpages.New(file).Page(1)
	if err != nil || !reflect.DeepEqual(page.Raster, raster) {
		t.Fatal(page, err)
	}
	report, err := faxpages.New(file).Check()
	if err != nil || report.Fault != nil || report.Pages != 2 || report.Rows != 4 {
		t.Fatal(report, err)
	}
	for _, coding := range []faxpages.Coding{faxpages.MH, faxpages.MR, faxpages.MMR} {
		strip, err := faxpages.Code(&raster, coding, faxpages.LSBFirst, 2)
		if err != nil {
			t.Fatal(err)
		}
		var runs [][]int
		faxpages.Strip(strip, faxpages.StripForm{Width: 8, Coding: coding, Order: faxpages.LSBFirst})(
			func(row faxpages.Row, err error) bool {
				runs = append(runs, row.Runs())
				return err == nil
			})
		if !reflect.DeepEqual(runs, [][]int{{3, 2, 3}, {0, 6, 2}}) {
			t.Fatal(coding, runs)
		}
	}
}

// A page of one white row in MMR, of which the receiver counted three bad rows, and two of them one after the other.
func counted() []byte {
	file := []byte("II*\x00\x0a\x00\x00\x00\x80\x00")
	fields := [][3]uint32{{256, 3, 8}, {257, 3, 1}, {259, 3, 4}, {262, 3, 0}, {273, 3, 8}, {279, 3, 1},
		{326, 4, 3}, {328, 3, 2}}
	file = append(file, byte(len(fields)), 0)
	for _, it := range fields {
		file = append(file, byte(it[0]), byte(it[0]>>8), byte(it[1]), 0, 1, 0, 0, 0, byte(it[2]), 0, 0, 0)
	}
	return append(file, 0, 0, 0, 0)
}

// What the receiver of a page counted of bad rows is told, and of a page that is not there nothing.
func TestReceived(t *testing.T) {
	fax := faxpages.New(counted())
	received, err := fax.Received(0)
	if err != nil || received != (faxpages.Received{BadRows: 3, Clean: -1, Consecutive: 2}) {
		t.Fatal(received, err)
	}
	none := faxpages.Received{BadRows: -1, Clean: -1, Consecutive: -1}
	for _, page := range []int{-1, 1, 2} {
		if received, err = fax.Received(page); !errors.Is(err, faxpages.ErrOutside) || received != none {
			t.Fatal(page, received, err)
		}
	}
	whole, _ := faxpages.Open("../samples/three-mmr-rows.tif")
	if received, err = whole.Received(0); err != nil || received != none {
		t.Fatal(received, err)
	}
	var fault *faxpages.Fault
	if _, err = faxpages.New(nil).Received(0); !errors.As(err, &fault) || fault.Number != faxpages.ShortHeader {
		t.Fatal(err)
	}
}

// What is out of range is an error.
func TestRefused(t *testing.T) {
	fax := faxpages.New(nil)
	for _, err := range []error{
		func() error { _, err := fax.Form(-1); return err }(),
		func() error { _, err := faxpages.New([]byte("II*\x00")).Form(0); return err }(),
		func() error { _, err := fax.Page(0); return err }(),
		func() error { _, err := faxpages.Convert(nil, faxpages.Options{}); return err }(),
		func() error { _, err := faxpages.Convert(nil, faxpages.Options{K: -1}); return err }(),
		func() error { _, err := faxpages.SalvageStrip(nil, faxpages.StripForm{}); return err }(),
		func() error { _, err := faxpages.Code(&faxpages.Raster{Width: 8}, faxpages.MH, 1, 1); return err }(),
		func() error { _, err := os.Open("none"); return err }(),
	} {
		if err == nil || err.Error() == "" {
			t.Fatal(err)
		}
	}
}

// The rows of a strip, and the error that ends them, or nil.
func rowsOf(rows faxpages.Seq[faxpages.Row]) (found []faxpages.Row, end error) {
	rows(func(row faxpages.Row, err error) bool {
		if end = err; err == nil {
			found = append(found, row)
		}
		return true
	})
	return found, end
}

// Data that comes in pieces has the rows and the end that it has at once, also where it is cut or damaged.
func TestReader(t *testing.T) {
	page, err := faxpages.New(drawn(t)).Page(0)
	if err != nil {
		t.Fatal(err)
	}
	for _, coding := range []faxpages.Coding{faxpages.MH, faxpages.MR, faxpages.MMR} {
		data, err := faxpages.Code(&page.Raster, coding, faxpages.LSBFirst, 4)
		if err != nil {
			t.Fatal(err)
		}
		for cut := 0; cut < len(data); cut += 1 + len(data)/7 {
			damaged := append([]byte(nil), data...)
			damaged[cut] ^= 0x42
			for _, tried := range [][]byte{data, data[:cut], damaged} {
				for _, rows := range []int{0, 1, page.Rows} {
					form := faxpages.StripForm{Width: page.Width, Rows: rows, Coding: coding, Order: faxpages.LSBFirst}
					seeReader(t, tried, form)
				}
			}
		}
	}
	if _, err := faxpages.NewReader(nil, faxpages.StripForm{}).ReadRow(); err != faxpages.ErrOptions {
		t.Fatal(err)
	}
	broken := errors.New("broken")
	if _, err := io.ReadAll(faxpages.NewReader(iotest.ErrReader(broken), faxpages.StripForm{Width: 8, Coding: faxpages.MH})); err != broken {
		t.Fatal(err)
	}
}

func seeReader(t *testing.T, data []byte, form faxpages.StripForm) {
	t.Helper()
	wanted, end := rowsOf(faxpages.Strip(data, form))
	for _, from := range []io.Reader{bytes.NewReader(data), iotest.OneByteReader(bytes.NewReader(data))} {
		var found []faxpages.Row
		reader := faxpages.NewReader(from, form)
		row, err := reader.ReadRow()
		for ; err == nil; row, err = reader.ReadRow() {
			found = append(found, row)
		}
		if err == io.EOF {
			err = nil
		}
		if !reflect.DeepEqual(found, wanted) || !reflect.DeepEqual(err, end) {
			t.Fatalf("%v: %d rows, %v; wanted %d, %v", form, len(found), err, len(wanted), end)
		}
	}
	packed, err := io.ReadAll(faxpages.NewReader(bytes.NewReader(data), form))
	if !reflect.DeepEqual(err, end) || len(packed) != len(wanted)*((form.Width+7)/8) {
		t.Fatalf("%v: %d bytes, %v", form, len(packed), err)
	}
}

// A row is there when its last byte came: a reader asks for no more.
func TestReaderWaitsForNothing(t *testing.T) {
	reader := faxpages.NewReader(io.MultiReader(bytes.NewReader([]byte{0x2F, 0xF8}), iotest.ErrReader(errors.New("too late"))),
		faxpages.StripForm{Width: 8, Rows: 2, Coding: faxpages.MMR})
	for number := 0; number < 2; number++ {
		if row, err := reader.ReadRow(); err != nil || row.Number != number || row.Packed[0] != 0x30 {
			t.Fatal(row, err)
		}
	}
	if _, err := reader.ReadRow(); err != io.EOF {
		t.Fatal(err)
	}
}

// A writer takes pages and what is left of damaged ones as they are.
func TestWriter(t *testing.T) {
	fax, err := faxpages.Open("../samples/damaged-fourth-page.tif")
	if err != nil {
		t.Fatal(err)
	}
	var out bytes.Buffer
	writer := faxpages.NewWriter(&out)
	if writer.Close() == nil {
		t.Fatal("a file without a page is written")
	}
	left, _ := fax.Salvage(3)
	page, _ := fax.Page(0)
	for _, sheet := range []faxpages.Sheet{page, left} {
		if err := writer.Add(sheet); err != nil {
			t.Fatal(err)
		}
	}
	if err := writer.Close(); err != nil {
		t.Fatal(err)
	}
	for number, wanted := range []*faxpages.Raster{&page.Raster, &left.Raster} {
		written, err := faxpages.New(out.Bytes()).Page(number)
		if err != nil || !reflect.DeepEqual(&written.Raster, wanted) || written.Form.X != page.Form.X {
			t.Fatal(number, written, err)
		}
	}
	pages, err := faxpages.Write([]*faxpages.Page{page, {Form: left.Form, Raster: left.Raster}}, 4)
	if err != nil || !bytes.Equal(pages, out.Bytes()) {
		t.Fatal("Write makes another file", err)
	}
}

// A file of a page whose rows are long and short.
func drawn(t *testing.T) []byte {
	t.Helper()
	raster := faxpages.Raster{Width: 300, Rows: 60}
	for at := 0; at < raster.Rows*raster.Stride(); at++ {
		raster.Packed = append(raster.Packed, []byte{0, 0, 0xFF, byte(at * at), 0, 0, byte(at)}[(at+at/38)%7])
	}
	file, err := faxpages.Write([]*faxpages.Page{{Form: faxpages.NewForm(300, 60, faxpages.MH), Raster: raster}}, 4)
	if err != nil {
		t.Fatal(err)
	}
	return file
}

// What is left one after another is what is left at once.
func TestSalvagedRows(t *testing.T) {
	fax, err := faxpages.Open("../samples/damaged-fourth-page.tif")
	if err != nil {
		t.Fatal(err)
	}
	whole, _ := fax.Salvage(3)
	row, stretches := 0, 0
	fax.SalvagedRows(3)(func(left faxpages.Left, err error) bool {
		if left.Row != nil {
			if whole.IsLost(row) || left.Row.Number != row || !bytes.Equal(left.Row.Packed, whole.Row(row)) {
				t.Fatal(row, left.Row)
			}
			row++
		} else {
			if !whole.IsLost(row) || *left.Lost != whole.Lost[stretches] {
				t.Fatal(row, left.Lost)
			}
			row += left.Lost.Rows
			stretches++
		}
		return err == nil
	})
	if row != whole.Rows || stretches != 1 {
		t.Fatal(row, stretches)
	}
	var end error
	fax.SalvagedRows(9)(func(_ faxpages.Left, err error) bool { end = err; return true })
	if end != faxpages.ErrOutside {
		t.Fatal(end)
	}
}
