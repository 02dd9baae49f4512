//go:build kullneyra_installed

package kullneyra

// The library that `make install` put in place: go build -tags kullneyra_installed.

/*
#cgo pkg-config: kullneyra
*/
import "C"
