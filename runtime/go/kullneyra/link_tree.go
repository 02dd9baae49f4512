//go:build !kullneyra_installed

package kullneyra

// The library of this repository: `make library` makes it.

/*
#cgo CFLAGS: -I${SRCDIR}/../../include
#cgo LDFLAGS: ${SRCDIR}/../../../target/staticlib/libkullneyra.a
*/
import "C"
