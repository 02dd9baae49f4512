package oci

import (
	"sync"

	"kullneyra.example/go/kullneyra"
)

// blank has the work words of scans: all 0, and 0 again after every call, so that they are made once and used again.
var blank = sync.Pool{New: func() any { return new([kullneyra.ScanWork]uint32) }}

// mentions are the places of the texts where a name stands: the owner of the text, and the object that is named, as the proved
// scan lists them.
func mentions(n names, t texts) (from, to []uint32, err error) {
	objects := 1
	for _, list := range [][]uint32{n.objects, t.owners} {
		for _, object := range list {
			objects = max(objects, int(object)+1)
		}
	}
	words := blank.Get().(*[kullneyra.ScanWork]uint32)
	defer blank.Put(words)
	work := words[:]
	length, err := kullneyra.ScanLength(uint32(objects), uint32(n.width), n.bytes, n.objects, t.bytes, t.ends, t.owners, work)
	if err != nil {
		return nil, nil, err
	}
	from, to = make([]uint32, length), make([]uint32, length)
	return from, to, kullneyra.Scan(uint32(objects), uint32(n.width), n.bytes, n.objects, t.bytes, t.ends, t.owners, work, from, to)
}
