package oci

// names are hexadecimal names of one width, ascending and distinct, laid end to end; each names an object.
type names struct {
	width   int
	bytes   []byte
	objects []uint32
}

// texts are laid end to end; each has its end, and the object that owns it.
type texts struct {
	bytes  []byte
	ends   []uint64
	owners []uint32
}

func (t *texts) add(owner uint32, text []byte) {
	t.bytes = append(t.bytes, text...)
	t.ends = append(t.ends, uint64(len(t.bytes)))
	t.owners = append(t.owners, owner)
}

func (t *texts) clear() { t.bytes, t.ends, t.owners = t.bytes[:0], t.ends[:0], t.owners[:0] }
