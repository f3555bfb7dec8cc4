package faxpages

// #include <faxpages.h>
import "C"

import (
	"image"
	"image/color"
)

// Raster is rows, packed one after another: the highest bit of a byte first, 1 for black. It is an image, of white and
// black.
type Raster struct {
	Width, Rows int
	Packed      []byte
}

// Stride is how many bytes a row has.
func (r *Raster) Stride() int { return (r.Width + 7) / 8 }

// Row is the packed bytes of a row, from 0.
func (r *Raster) Row(number int) []byte {
	return r.Packed[number*r.Stride() : (number+1)*r.Stride()]
}

// ColorModel is that of an image.
func (r *Raster) ColorModel() color.Model { return color.GrayModel }

// Bounds are those of an image.
func (r *Raster) Bounds() image.Rectangle { return image.Rect(0, 0, r.Width, r.Rows) }

// At is a pel of the image: black, or white.
func (r *Raster) At(x, y int) color.Color {
	if !image.Pt(x, y).In(r.Bounds()) || r.Packed[y*r.Stride()+x/8]>>(7-x%8)&1 == 0 {
		return color.Gray{Y: 255}
	}
	return color.Gray{Y: 0}
}

// Page is a page, or what stands before its fault: of the rows of its form, those that were read.
type Page struct {
	Form Form
	Raster
}

// Page reads a page. If a row cannot be read, the page has the rows before it, and its fault is the error. It takes
// memory for the rows that are read, whatever the form says.
func (f Fax) Page(page int) (*Page, error) {
	form, err := f.Form(page)
	if err != nil {
		return nil, err
	}
	made := &Page{Form: form, Raster: Raster{Width: form.Width}}
	f.RowsFrom(page, 0)(func(row Row, fault error) bool {
		if fault != nil || row.Page != page {
			err = fault
			return false
		}
		made.Packed = append(made.Packed, row.Packed...)
		made.Rows++
		return made.Rows < form.Rows
	})
	return made, err
}

// Stretch is rows that are lost, one after another.
type Stretch struct {
	First, Rows int
	Fault       FaultNumber // of the first of them
}

// Salvaged is a salvaged page or strip: lost rows are white.
type Salvaged struct {
	Form Form
	Raster
	Lost []Stretch
	// Of a strip of unknown height: the fault with which its rows end, or 0.
	End FaultNumber
}

// IsLost says whether a row is lost, by its number from 0.
func (s *Salvaged) IsLost(row int) bool {
	for _, lost := range s.Lost {
		if lost.First <= row && row < lost.First+lost.Rows {
			return true
		}
	}
	return false
}

// Left is what is left of a page, in the order of its rows: a row that is found, or rows that are lost. The other is nil.
type Left struct {
	Row  *Row
	Lost *Stretch
}

// SalvagedRows is what Salvage finds, one after another from the top down.
func (f Fax) SalvagedRows(page int) Seq[Left] {
	return func(yield func(Left, error) bool) {
		left, err := f.Salvage(page)
		if err != nil {
			yield(Left{}, err)
			return
		}
		lost := left.Lost
		for number, goesOn := 0, true; goesOn && number < left.Rows; {
			if len(lost) > 0 && lost[0].First == number {
				goesOn = yield(Left{Lost: &lost[0]}, nil)
				number += lost[0].Rows
				lost = lost[1:]
			} else {
				goesOn = yield(Left{Row: &Row{page, number, left.Width, left.Row(number)}}, nil)
				number++
			}
		}
	}
}

// A call that salvages, and its status.
type salvage func(out *C.uint8_t, room, stride C.size_t, lost *C.struct_faxpages_lost, most C.size_t,
	told *C.struct_faxpages_told) C.uint32_t

func salvaged(width, rows int, call salvage) (*Salvaged, *C.struct_faxpages_told, C.uint32_t) {
	var told C.struct_faxpages_told
	stride := (width + 7) / 8
	packed, lost := make([]byte, rows*stride+1), make([]C.struct_faxpages_lost, (rows+1)/2+1)
	out, room := bytesOf(packed)
	status := call(out, room, C.size_t(stride), &lost[0], C.size_t(len(lost)), &told)
	count := int(told.count)
	made := &Salvaged{Raster: Raster{Width: width, Rows: count, Packed: packed[:count*stride]}}
	for i := 0; i < int(told.used) && i < len(lost); i++ {
		made.Lost = append(made.Lost, Stretch{int(lost[i].row), int(lost[i].rows), FaultNumber(lost[i].fault)})
	}
	return made, &told, status
}

// Salvage returns the readable rows of a damaged page. It takes memory for all rows that the form says.
func (f Fax) Salvage(page int) (*Salvaged, error) {
	form, err := f.Form(page)
	if err != nil {
		return nil, err
	}
	file, length := bytesOf(f.file)
	var given C.struct_faxpages_form
	made, told, status := salvaged(form.Width, form.Rows, func(out *C.uint8_t, room, stride C.size_t,
		lost *C.struct_faxpages_lost, most C.size_t, told *C.struct_faxpages_told) C.uint32_t {
		return C.faxpages_salvage(file, length, C.uint32_t(page), &given, out, room, stride, lost, most, told)
	})
	made.Form = form
	return made, errorOf(status, &told.fault)
}

// Received is what the receiver of a page counted of bad rows, those that it could not read, by three fields of TIFF-F
// (RFC 2306). A number is -1 where the page has no such field, or one that is neither SHORT nor LONG, or whose first value
// lies outside the file. Receivers need not count, and may count too few.
type Received struct {
	BadRows     int // how many rows were bad (326, BadFaxLines)
	Clean       int // 0: none was bad; 1: some were, and others stand in their places; 2: bad rows stand in the data (327)
	Consecutive int // how many bad rows came one after another, at most (328, ConsecutiveBadFaxLines)
}

// Received is what the receiver of a page counted of bad rows. No row is looked at, and these fields are never a fault.
func (f Fax) Received(page int) (Received, error) {
	none := Received{-1, -1, -1}
	if page < 0 {
		return none, ErrOutside
	}
	var its C.struct_faxpages_received
	file, length := bytesOf(f.file)
	status := C.faxpages_received(file, length, C.uint32_t(page), &its)
	if status == C.FAXPAGES_END {
		return none, ErrOutside
	}
	if status != C.FAXPAGES_DONE {
		return none, errorOf(status, &its.fault)
	}
	return Received{
		numberOf(its.has_bad_rows, its.bad_rows), numberOf(its.has_clean, its.clean),
		numberOf(its.has_consecutive, its.consecutive)}, nil
}

// The number, or -1 where there is none.
func numberOf(has, number C.uint32_t) int {
	if has == 0 {
		return -1
	}
	return int(number)
}
