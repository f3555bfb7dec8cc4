// Package register has image.Decode and image.DecodeConfig read the first page of a fax, by a blank import:
//
//	import _ "ironminnow.example/faxpages/go/register"
//
// It is for programs whose TIFF files are faxes: it takes each TIFF file, and a damaged fax, or a page that is none, is an
// error. The order of imports says which format is asked first.
package register

import (
	"image"

	faxpages "ironminnow.example/faxpages/go"
)

func init() {
	for _, magic := range []string{"II*\x00", "MM\x00*"} {
		image.RegisterFormat("fax", magic, faxpages.Decode, faxpages.DecodeConfig)
	}
}
