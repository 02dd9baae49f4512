package oci

import (
	"bytes"
	"context"
	"crypto/sha256"
	"encoding/hex"
	"errors"
	"fmt"
	"io"
	"os"
	"sort"
	"syscall"
	"unicode/utf8"

	digest "github.com/opencontainers/go-digest"
)

const (
	// Of every blob so many bytes are read, to see how it begins.
	headBytes = 4096
	// The widest name: of sha512.
	widest = 128
)

// Tests make these small.
var (
	// A text above this is scanned and hashed piece by piece, and not parsed: no reader takes a manifest of that size.
	mostText = int64(64 << 20)
	// So many bytes of texts are scanned at once.
	batchBytes = 2 << 20
	// So many names a scan takes: the calls number objects below it.
	mostNames = 65536
)

// errContent says that bytes are not those that a name stands for.
var errContent = errors.New("its content has another digest")

// follower reads the texts of a store and gathers what they name.
type follower struct {
	*Store
	groups []group
	owners []int // the object of each text
	batch  texts
	buffer []byte
	glance glance
	verify bool // what is read whole is hashed
}

// group is names of one width, numbered from 0 on, where the first names the object `base`.
type group struct {
	names names
	base  int
}

// follow looks at every blob, reads the texts among them, and gathers the references.
func (s *Store) follow(ctx context.Context, verify bool) error {
	f := &follower{Store: s, groups: s.groups(), buffer: make([]byte, headBytes), verify: verify}
	if err := f.take(0, s.top.text, s.top.content()); err != nil {
		return err
	}
	for number := 1; number < len(s.Blobs); number++ {
		if err := ctx.Err(); err != nil {
			return err
		}
		if err := f.look(number); err != nil {
			return err
		}
	}
	if err := f.scan(); err != nil {
		return err
	}
	f.symbolic()
	f.subjects()
	if err := s.suspects(ctx); err != nil {
		return err
	}
	s.References = distinct(s.References)
	return nil
}

// content is what a top says. One that has nothing but names says what it lists.
func (t *top) content() *content {
	if t.said == nil {
		return &content{kind: Index, refers: t.entries}
	}
	return t.said
}

// distinct sorts references by their numbers and leaves each once.
func distinct(all []Reference) []Reference {
	before := func(a, b int) bool {
		x, y := all[a], all[b]
		if x.From != y.From {
			return x.From < y.From
		}
		if x.To != y.To {
			return x.To < y.To
		}
		return !x.Subject && y.Subject
	}
	if !sort.SliceIsSorted(all, before) {
		sort.Slice(all, before)
	}
	kept := all[:0]
	for k, one := range all {
		if k == 0 || one != all[k-1] {
			kept = append(kept, one)
		}
	}
	return kept
}

// groups are the names of the blobs, by width, so many to a group as a scan takes.
func (s *Store) groups() []group {
	var all []group
	for number := 1; number < len(s.Blobs); number++ {
		blob := &s.Blobs[number]
		if blob.foreign {
			continue
		}
		name := blob.Digest.Encoded()
		last := len(all) - 1
		// Blobs of one algorithm stand side by side.
		if last < 0 || all[last].names.width != len(name) || all[last].base+len(all[last].names.objects) != number || len(all[last].names.objects) == mostNames {
			most := len(s.Blobs) - number
			if most > mostNames {
				most = mostNames
			}
			all = append(all, group{names{len(name), make([]byte, 0, most*len(name)), make([]uint32, 0, most)}, number})
			last++
		}
		n := &all[last].names
		n.bytes = append(n.bytes, name...)
		n.objects = append(n.objects, uint32(len(n.objects)))
	}
	return all
}

// scan finds the names in the texts that were gathered.
func (f *follower) scan() error {
	for _, group := range f.groups {
		from, to, err := mentions(group.names, f.batch)
		if err != nil {
			return err
		}
		for k := range from {
			f.References = append(f.References, Reference{From: f.owners[from[k]], To: group.base + int(to[k])})
		}
	}
	f.batch.clear()
	return nil
}

// add gives bytes of a text to the scan.
func (f *follower) add(text []byte) error {
	if len(f.owners) > mostNames {
		return fmt.Errorf("%w: more than %d manifests and indexes; split the store, or remove what is not needed by hand", ErrTooLarge, mostNames-1)
	}
	if len(f.batch.bytes) > 0 && len(f.batch.bytes)+len(text) > batchBytes {
		if err := f.scan(); err != nil {
			return err
		}
	}
	f.batch.add(uint32(len(f.owners)-1), text)
	return nil
}

// take keeps what a text says.
func (f *follower) take(number int, text []byte, c *content) error {
	blob := &f.Blobs[number]
	blob.text, blob.Kind = true, c.kind
	f.owners = append(f.owners, number)
	if err := f.add(text); err != nil {
		return err
	}
	if len(c.more) > 0 {
		if err := f.add(c.more); err != nil {
			return err
		}
	}
	for _, name := range c.embedded {
		f.holders[name] = append(f.holders[name], number)
	}
	for _, one := range c.refers {
		f.name(number, one)
	}
	for _, subject := range c.subjects {
		f.subjectsOf = append(f.subjectsOf, named{number, subject})
	}
	return nil
}

// named is a text and a digest that it names as its subject.
type named struct {
	by      int
	subject digest.Digest
}

// name keeps what a descriptor says of a blob.
func (s *Store) name(by int, one descriptor) {
	number, there := s.Number(one.Digest)
	if !there {
		if len(one.Data) == 0 {
			s.missing = append(s.missing, Missing{one.Digest, s.Blobs[by].Digest, len(one.URLs) > 0, by})
		}
		return
	}
	blob, kind := &s.Blobs[number], kindOf(one.MediaType)
	if one.listed || kind == Index || kind == Manifest || kind == Artifact {
		blob.suspect = true
	}
	if !blob.text && blob.Kind == Unknown {
		blob.Kind = kind
	}
	// The scan finds every other name.
	if blob.foreign {
		s.References = append(s.References, Reference{From: by, To: number})
	}
}

// symbolic: what a symbolic link leads to is held by it.
func (s *Store) symbolic() {
	var links []int
	for number := range s.Blobs {
		if s.Blobs[number].link && !s.Blobs[number].absent {
			links = append(links, number)
		}
	}
	if len(links) == 0 {
		return
	}
	type identity struct{ device, number uint64 }
	file := func(number int) (identity, bool) {
		var stat syscall.Stat_t
		err := syscall.Stat(s.tree.at(s.file(&s.Blobs[number]).path()), &stat)
		return identity{uint64(stat.Dev), stat.Ino}, err == nil
	}
	files := map[identity]int{}
	for number := 1; number < len(s.Blobs); number++ {
		if s.Blobs[number].link {
			continue
		}
		if one, there := file(number); there {
			files[one] = number
		}
	}
	for _, number := range links {
		if one, there := file(number); there && files[one] != 0 {
			s.References = append(s.References, Reference{From: number, To: files[one]})
		}
	}
}

// subjects: what names a subject is held by it, and by what holds the subject in a descriptor's data.
func (s *Store) subjects() {
	for _, one := range s.subjectsOf {
		if number, there := s.Number(one.subject); there {
			s.References = append(s.References, Reference{From: one.by, To: number, Subject: true})
		}
		for _, holder := range s.holders[one.subject] {
			if holder != one.by {
				s.References = append(s.References, Reference{From: one.by, To: holder, Subject: true})
			}
		}
	}
}

// suspects are hashed: what is listed as a manifest and does not begin as one may be a damaged one.
func (s *Store) suspects(ctx context.Context) error {
	buffer := make([]byte, 1<<16)
	for number := 1; number < len(s.Blobs); number++ {
		blob := &s.Blobs[number]
		if !blob.suspect || blob.text || blob.absent || blob.foreign || blob.damage != nil {
			continue
		}
		if _, err := s.hash(ctx, blob, buffer, nil); err != nil {
			if ctx.Err() != nil {
				return err
			}
			blob.damage = &Damage{blob.Digest, err, true}
		}
	}
	return nil
}

// hash compares a blob with its digest.
func (s *Store) hash(ctx context.Context, blob *Blob, buffer []byte, count func(int)) (int64, error) {
	file, err := os.Open(s.tree.at(s.file(blob).path()))
	if err != nil {
		return 0, err
	}
	defer file.Close()
	verifier, all := blob.Digest.Verifier(), int64(0)
	for {
		if err := ctx.Err(); err != nil {
			return all, err
		}
		n, err := file.Read(buffer)
		all += int64(n)
		verifier.Write(buffer[:n])
		if count != nil {
			count(n)
		}
		if errors.Is(err, io.EOF) {
			break
		}
		if err != nil {
			return all, err
		}
	}
	if !verifier.Verified() {
		return all, errContent
	}
	return all, nil
}

// look reads how a blob begins, and all of it if it may be a text. What cannot be read is damaged.
func (f *follower) look(number int) error {
	blob := &f.Blobs[number]
	fault, err := f.lookInto(number)
	switch {
	case err != nil:
		return err
	case errors.Is(fault, syscall.ENOENT):
		blob.absent = true
		if blob.link {
			f.Stray = append(f.Stray, f.file(blob).path())
		}
	case fault != nil:
		blob.damage = &Damage{blob.Digest, fault, true}
	}
	return nil
}

// readSome reads from a file as far as one call does.
func readSome(fd int, into []byte) (int, error) {
	for {
		n, err := syscall.Read(fd, into)
		if err != syscall.EINTR {
			return max(n, 0), err
		}
	}
}

// lookInto answers a fault of the blob, and an error that ends the reading.
func (f *follower) lookInto(number int) (fault, err error) {
	blob := &f.Blobs[number]
	flags := 0
	if !blob.link {
		flags = syscall.O_NOFOLLOW
	}
	at := f.file(blob)
	fd, err := f.tree.file(at, flags)
	if errors.Is(err, syscall.ELOOP) && !blob.link {
		// The place is a folder, and the file in it a link.
		blob.link = true
		fd, err = f.tree.file(at, 0)
	}
	if err != nil {
		return err, nil
	}
	defer syscall.Close(fd)
	failed := func(what string, err error) error {
		return &os.PathError{Op: what, Path: f.tree.at(at.path()), Err: err}
	}
	var stat syscall.Stat_t
	if err := syscall.Fstat(fd, &stat); err != nil {
		return failed("stat", err), nil
	}
	if stat.Mode&syscall.S_IFMT != syscall.S_IFREG {
		return syscall.ENOENT, nil
	}
	blob.Size = stat.Size
	if blob.changed = stat.Mtim.Nano(); stat.Ctim.Nano() > blob.changed {
		blob.changed = stat.Ctim.Nano()
	}
	head, err := readSome(fd, f.buffer[:headBytes])
	small := head < headBytes && int64(head) == blob.Size
	for err == nil && head == headBytes && len(bytes.TrimLeft(f.buffer[:head], spaces)) == 0 {
		head, err = readSome(fd, f.buffer[:headBytes])
	}
	if err != nil {
		return failed("read", err), nil
	}
	if blob.Size == 0 && !blob.foreign && !matches(blob.Digest, nil) {
		return errContent, nil
	}
	if f.verify && small && !blob.foreign {
		if !matches(blob.Digest, f.buffer[:head]) {
			return errContent, nil
		}
		blob.hashed = true
	}
	if !mayBeText(f.buffer[:head]) {
		return nil, nil
	}
	text := f.buffer[:head]
	if !small {
		if _, err := syscall.Seek(fd, 0, io.SeekStart); err != nil {
			return failed("seek", err), nil
		}
		if blob.Size > mostText {
			return f.pieces(number, fd)
		}
		if text, err = f.whole(int(blob.Size), fd); err != nil {
			return failed("read", err), nil
		}
	}
	c, told := f.glance.read(text)
	if !told {
		c = parse(text)
	}
	if c == nil {
		return nil, nil
	}
	if err := f.take(number, text, c); err != nil {
		return nil, err
	}
	if !blob.foreign && !blob.hashed && !matches(blob.Digest, text) {
		return errContent, nil
	}
	blob.hashed = !blob.foreign
	if c.fault != nil && (!errors.Is(c.fault, errNoJSON) || written(text)) {
		blob.damage = &Damage{blob.Digest, c.fault, false}
	}
	return nil, nil
}

// written says whether bytes may be of a JSON text, whole or cut off: other bytes were never a manifest.
func written(text []byte) bool {
	for len(text) > 0 && text[len(text)-1] >= utf8.RuneSelf {
		text = text[:len(text)-1]
	}
	for _, letter := range text {
		if letter < ' ' && letter != '\t' && letter != '\n' && letter != '\r' {
			return false
		}
	}
	return utf8.Valid(text)
}

// matches says whether bytes have this digest.
func matches(name digest.Digest, text []byte) bool {
	if name.Algorithm() == digest.SHA256 {
		sum := sha256.Sum256(text)
		var letters [2 * sha256.Size]byte
		hex.Encode(letters[:], sum[:])
		return name.Encoded() == string(letters[:])
	}
	return name.Algorithm().FromBytes(text) == name
}

func max(a, b int) int {
	if a > b {
		return a
	}
	return b
}

// whole reads all of a file.
func (f *follower) whole(size, fd int) ([]byte, error) {
	if len(f.buffer) < size+1 {
		f.buffer = make([]byte, 2*size+1)
	}
	all := 0
	for {
		if all == len(f.buffer) {
			f.buffer = append(f.buffer, make([]byte, len(f.buffer))...)
		}
		n, err := readSome(fd, f.buffer[all:])
		if n == 0 || err != nil {
			return f.buffer[:all], err
		}
		all += n
	}
}

// pieces scans and hashes a large text, piece by piece; pieces overlap, so that no name is cut.
func (f *follower) pieces(number, fd int) (fault, err error) {
	blob := &f.Blobs[number]
	if err := f.take(number, nil, &content{kind: Unknown}); err != nil {
		return nil, err
	}
	buffer, kept := make([]byte, batchBytes), 0
	var verifier digest.Verifier
	if !blob.foreign {
		verifier = blob.Digest.Verifier()
	}
	for {
		n, err := readSome(fd, buffer[kept:])
		if err != nil {
			return err, nil
		}
		if n == 0 {
			break
		}
		if verifier != nil {
			verifier.Write(buffer[kept : kept+n])
		}
		if err := f.add(buffer[:kept+n]); err != nil {
			return nil, err
		}
		tail := buffer[max(0, kept+n-widest+1) : kept+n]
		kept = copy(buffer, tail)
	}
	if verifier != nil && !verifier.Verified() {
		return errContent, nil
	}
	return nil, nil
}
