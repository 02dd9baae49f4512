// Package oci reads a folder of OCI images, an image layout or a registry's, as a store of objects that refer to each other, and
// lets the proved reader, marker and sweep of package kullneyra find what of it nothing holds.
//
// Object 0 is what holds from outside: index.json, or the tags of a registry. Every blob is an object. A text, which is a manifest
// or an index by its content, refers to every blob whose name stands in it. What names a subject, as a signature does, is held
// by the subject too, whether anything lists it or not. docs/OCI.md says what is held besides, and what is promised.
package oci

import (
	"context"
	"fmt"
	"sort"
	"strings"
	"time"

	digest "github.com/opencontainers/go-digest"
)

// Blob is an object of the store: what holds from outside, or a blob of it or among what was moved.
type Blob struct {
	Digest digest.Digest // empty for what holds from outside
	Size   int64
	Kind   string
	Moved  string // the folder of what was moved in which it lies; empty for what lies in its place

	changed int64 // the later one of the times of content and of name, in nanoseconds
	damage  *Damage
	text    bool // a manifest or an index, or what may be one
	link    bool // a symbolic link: it is read through, and never moved
	foreign bool // its algorithm is not known: it is never moved
	absent  bool // it went while the store was read, or its link leads nowhere
	suspect bool // a list of manifests names it, and it is none
	hashed  bool // its content is what its name says
	gone    bool // it was deleted
}

// Reference is an arrow between two objects, by their numbers. A subject's goes from what names it to what is named.
type Reference struct {
	From, To int
	Subject  bool
}

// Missing is a blob that something live refers to and that is not there: of another platform, or a foreign layer.
type Missing struct {
	Digest  digest.Digest
	By      digest.Digest // empty for what holds from outside
	Foreign bool          // it has an address to be fetched from

	by int
}

// Damage is a text that cannot be read as what it is.
type Damage struct {
	Digest digest.Digest
	Err    error

	content bool // the bytes are not those that the name stands for, or cannot be had
}

// Store is what a folder holds.
type Store struct {
	Path       string
	Top        string      // what holds from outside, as people call it
	Entry      string      // what it lists, as people call it
	Blobs      []Blob      // by number: what holds from outside, then in the order of their digests
	References []Reference // by both numbers, each once
	Stray      []string    // what stands among the blobs and is none, relative to Path; it is left alone
	Shared     string      // why nothing may be moved here, if that is so
	Uploads    int         // that have begun and not ended

	kind       kind
	tree       *tree
	top        *top
	links      []link  // by what they hang on, and their places
	busy       []int64 // when something was last written to each group of links, in nanoseconds
	missing    []Missing
	holders    map[digest.Digest][]int // the texts that hold a manifest in the data of a descriptor
	copies     []Blob                  // lie among what was moved, and are there besides
	subjectsOf []named
	began      time.Time
	folder     folderOf
}

// folderOf is the place of blobs in a folder of what was moved, the last one that was asked for.
type folderOf struct{ moved, within, path string }

// Options of Open.
type Options struct {
	Verify   bool                  // hash every blob and compare its digest
	Progress func(done, all int64) // bytes hashed, if Verify; from several goroutines, one at a time
}

// Fault is a fault of the store, with the blob that has it.
type Fault struct {
	Digest digest.Digest // empty for a file that is no blob
	Err    error
}

func (f *Fault) Error() string {
	if f.Digest == "" {
		return f.Err.Error()
	}
	return fmt.Sprintf("%s: %v", f.Digest, f.Err)
}

func (f *Fault) Unwrap() error { return f.Err }

// Open reads a store, and tells by itself of which kind it is. It changes nothing.
func Open(ctx context.Context, path string, o Options) (*Store, error) {
	kind, err := kindAt(path)
	if err != nil {
		return nil, err
	}
	s := &Store{Path: path, kind: kind, tree: newTree(path), holders: map[digest.Digest][]int{}, began: time.Now()}
	defer s.tree.close()
	if err := s.list(); err != nil {
		return nil, err
	}
	if err := s.follow(ctx, o.Verify); err != nil {
		return nil, err
	}
	if o.Verify {
		if err := s.verify(ctx, o.Progress); err != nil {
			return nil, err
		}
	}
	return s, nil
}

// list finds the blobs, in the order of their digests, what hangs on them, and what stands among them that is none.
func (s *Store) list() error {
	own := &listing{}
	if err := s.kind.read(s.tree, "", own); err != nil {
		return err
	}
	s.top, s.busy, s.Uploads, s.Stray = own.top, own.busy, own.uploads, own.stray
	s.Top, s.Entry = own.top.name, own.top.entry
	if s.Shared = own.shared; s.Shared == "" {
		s.Shared = shared(s.tree, append(s.kind.folders(s.tree), ownFolder, movedFolder))
	}
	all, first := []*listing{own}, s.kind.folders(s.tree)[0]
	folders, err := s.movedFolders()
	if err != nil {
		return err
	}
	for _, folder := range folders {
		one := &listing{moved: folder}
		if err := s.kind.read(s.tree, movedFolder+"/"+folder, one); err != nil {
			return err
		}
		// What is not laid out as the store is cannot be put back, and is told.
		names, err := s.tree.names(movedFolder + "/" + folder)
		if err != nil {
			return &Fault{Err: err}
		}
		for _, name := range names {
			if name != first {
				one.stray = append(one.stray, movedFolder+"/"+folder+"/"+name)
			}
		}
		s.Stray = append(s.Stray, one.stray...)
		all = append(all, one)
	}
	s.gather(all)
	sort.Strings(s.Stray)
	return nil
}

// gather numbers the blobs of all listings. What lies in its place goes before what was moved, and what was moved last before the rest.
func (s *Store) gather(all []*listing) {
	count := 1
	for _, one := range all {
		count += len(one.names)
	}
	s.Blobs = make([]Blob, 1, count)
	s.Blobs[0] = Blob{Kind: Index, Size: int64(len(s.top.text)), text: true}
	for _, one := range all {
		sort.Slice(one.names, func(a, b int) bool { return one.names[a] < one.names[b] })
		for _, name := range one.names {
			s.Blobs = append(s.Blobs, Blob{Digest: name, Kind: Unknown, Moved: one.moved, link: one.linked[name], foreign: !known(name)})
		}
		one.names = nil
	}
	blobs := s.Blobs[1:]
	before := func(a, b int) bool {
		if blobs[a].Digest != blobs[b].Digest {
			return blobs[a].Digest < blobs[b].Digest
		}
		return blobs[a].Moved == "" && blobs[b].Moved != "" || blobs[a].Moved > blobs[b].Moved && blobs[b].Moved != ""
	}
	if !sort.SliceIsSorted(blobs, before) {
		sort.Slice(blobs, before)
	}
	kept := s.Blobs[:1]
	for _, blob := range blobs {
		if last := kept[len(kept)-1]; last.Digest == blob.Digest {
			s.copies = append(s.copies, blob)
		} else {
			kept = append(kept, blob)
		}
	}
	s.Blobs = kept
	s.links = all[0].links
	for _, one := range all[1:] {
		for k := range one.links {
			one.links[k].moved = one.moved
		}
		s.links = append(s.links, one.links...)
	}
	for k := range s.links {
		link := &s.links[k]
		if link.object = s.find(link.name); link.object > 0 {
			// One string for the name and all that hangs on it.
			link.name = s.Blobs[link.object].Digest
			link.at.name = link.name.Encoded()
		}
	}
	sort.Slice(s.links, func(a, b int) bool { return s.links[a].before(&s.links[b]) })
	for k := range s.links {
		s.links[k].copy = k > 0 && s.links[k].object == s.links[k-1].object && s.links[k].at == s.links[k-1].at
	}
}

// linksOf are those that hang on an object.
func (s *Store) linksOf(object int) []link {
	if len(s.links) == 0 {
		return nil
	}
	from := sort.Search(len(s.links), func(k int) bool { return s.links[k].object >= object })
	to := from
	for to < len(s.links) && s.links[to].object == object {
		to++
	}
	return s.links[from:to]
}

// known says whether an algorithm of digests is.
func known(name digest.Digest) bool {
	return strings.HasPrefix(string(name), "sha256:") || name.Algorithm().Available()
}

// valid says whether a digest of a known algorithm is one.
func valid(name digest.Digest) bool {
	const prefix = "sha256:"
	encoded := strings.TrimPrefix(string(name), prefix)
	if len(name) != len(prefix)+64 || len(encoded) != 64 {
		return name.Validate() == nil
	}
	for k := 0; k < len(encoded); k++ {
		if letter := encoded[k]; (letter < '0' || letter > '9') && (letter < 'a' || letter > 'f') {
			return false
		}
	}
	return true
}

// within is a place in the store, as it is in a folder of what was moved.
func (s *Store) within(moved string, at place) place {
	if moved == "" {
		return at
	}
	if s.folder.moved != moved || s.folder.within != at.folder {
		s.folder = folderOf{moved, at.folder, movedFolder + "/" + moved + "/" + at.folder}
	}
	return place{s.folder.path, at.name}
}

// place is where a blob lies, and file is the one that has its bytes.
func (s *Store) place(blob *Blob) place {
	at, _ := s.kind.place(blob.Digest)
	return s.within(blob.Moved, at)
}

func (s *Store) file(blob *Blob) place {
	at, file := s.kind.place(blob.Digest)
	at = s.within(blob.Moved, at)
	if file != "" {
		at.name += "/" + file
	}
	return at
}

// find is the number of the object with this digest, and 0 if the store has none.
func (s *Store) find(name digest.Digest) int {
	number := 1 + sort.Search(len(s.Blobs)-1, func(k int) bool { return s.Blobs[1+k].Digest >= name })
	if number < len(s.Blobs) && s.Blobs[number].Digest == name {
		return number
	}
	return 0
}

// Number is the object's number, if the store has it.
func (s *Store) Number(name digest.Digest) (int, bool) {
	number := s.find(name)
	return number, number > 0 && !s.Blobs[number].absent
}
