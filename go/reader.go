package faxpages

// #include <faxpages.h>
import "C"

import (
	"image"
	"io"
)

const (
	// A row that is not whole in so many bytes is read again from its beginning as long as that reads no more bytes
	// than so many for each that came: bytes that come one by one take a time in proportion to their number.
	tried, again = 4096, 256
	// The most bytes of a file, as the program faxpages takes them.
	mostInput = 1 << 28
)

// Reader reads the rows of T.4 or T.6 data with no file around them as the data comes, as from a line. NewReader makes one.
type Reader struct {
	from   io.Reader
	form   C.struct_faxpages_strip
	data   []byte // what came and is not read yet
	at     C.struct_faxpages_place
	runs   []C.uint32_t
	out    []byte
	ready  []byte // rows that were read and are not returned yet
	tried  int    // how many bytes of data have no whole row
	again  int    // how many bytes more may be read again
	goesOn bool   // there may be more rows in data
	isLast bool   // no more bytes come
	err    error
}

// NewReader is a reader of T.4 or T.6 data from r. As an io.Reader it has the rows packed, one after another: the highest bit
// of a byte first, 1 for black. A row is there as soon as its last byte came.
func NewReader(r io.Reader, form StripForm) *Reader {
	made := &Reader{from: r, runs: make([]C.uint32_t, C.FAXPAGES_RUNS)}
	if form.isValid() {
		made.form = form.given()
		made.out = make([]byte, made.stride()*(1+(1<<16)/made.stride()))
	} else {
		made.err = ErrOptions
	}
	return made
}

func (r *Reader) stride() int { return int(r.form.width+7) / 8 }

// Read reads packed rows. The error after the last one is io.EOF, or a Fault.
func (r *Reader) Read(packed []byte) (int, error) {
	if len(packed) == 0 {
		return 0, nil
	}
	if err := r.fill(); err != nil {
		return 0, err
	}
	count := copy(packed, r.ready)
	r.ready = r.ready[count:]
	return count, nil
}

// ReadRow reads the next row, whose page is 0. The error after the last one is io.EOF, or a Fault. Read takes bytes of rows:
// call one of both.
func (r *Reader) ReadRow() (Row, error) {
	if err := r.fill(); err != nil {
		return Row{}, err
	}
	stride := r.stride()
	number := int(r.at.row) - len(r.ready)/stride
	packed := append([]byte(nil), r.ready[:stride]...)
	r.ready = r.ready[stride:]
	return Row{0, number, int(r.form.width), packed}, nil
}

// Reads on until a row is ready, or none comes.
func (r *Reader) fill() error {
	var piece [4096]byte
	for len(r.ready) == 0 && r.err == nil {
		if r.mayRead() {
			r.read()
			continue
		}
		count, err := r.from.Read(piece[:])
		r.data = append(r.data, piece[:count]...)
		r.again += again * count
		if err == io.EOF {
			r.isLast = true
		} else {
			r.err = err
		}
	}
	if len(r.ready) > 0 {
		return nil
	}
	return r.err
}

// Whether there is something to read that was not read yet, and may be.
func (r *Reader) mayRead() bool {
	return r.goesOn || r.isLast || len(r.data) > r.tried && (len(r.data) <= tried || len(r.data) <= r.again)
}

// Reads rows of the data, as many as have room.
func (r *Reader) read() {
	var told C.struct_faxpages_told
	stride := r.stride()
	data, length := bytesOf(r.data)
	call := func() C.uint32_t {
		if r.isLast {
			return C.faxpages_strip_rows(data, length, &r.form, &r.at, &r.runs[0], C.size_t(len(r.runs)),
				(*C.uint8_t)(&r.out[0]), C.size_t(len(r.out)), C.size_t(stride), &told)
		}
		return C.faxpages_strip_part(data, length, &r.form, &r.at, &r.runs[0], C.size_t(len(r.runs)),
			(*C.uint8_t)(&r.out[0]), C.size_t(len(r.out)), C.size_t(stride), &told)
	}
	status := call()
	r.ready = r.out[:int(told.count)*stride]
	r.goesOn = status == C.FAXPAGES_DONE
	switch {
	case status == C.FAXPAGES_MORE:
		r.drop()
	case status == C.FAXPAGES_DONE && (r.form.rows == 0 || r.at.row < r.form.rows):
	default:
		if r.err = errorOf(status, &told.fault); r.err == nil {
			r.err = io.EOF
		}
	}
}

// Drops the bytes that were read wholly.
func (r *Reader) drop() {
	used := int(r.at.bits / 8)
	r.data = append(r.data[:0], r.data[used:]...)
	r.at.bits %= 8
	if r.tried = len(r.data); r.tried > tried {
		r.again -= r.tried
	}
}

func readAll(r io.Reader) (Fax, error) {
	file, err := io.ReadAll(io.LimitReader(r, mostInput+1))
	if err == nil && len(file) > mostInput {
		err = ErrTooLarge
	}
	return New(file), err
}

// Decode reads the first page of a fax as an image, for image.RegisterFormat. A damaged page is an error. By
//
//	import _ "ironminnow.example/faxpages/go/register"
//
// image.Decode calls it for each TIFF file.
func Decode(r io.Reader) (image.Image, error) {
	fax, err := readAll(r)
	if err != nil {
		return nil, err
	}
	page, err := fax.Page(0)
	if err != nil {
		return nil, err
	}
	return page, nil
}

// DecodeConfig reads the size of the first page of a fax, for image.RegisterFormat.
func DecodeConfig(r io.Reader) (image.Config, error) {
	fax, err := readAll(r)
	if err != nil {
		return image.Config{}, err
	}
	form, err := fax.Form(0)
	return image.Config{ColorModel: (&Raster{}).ColorModel(), Width: form.Width, Height: form.Rows}, err
}
