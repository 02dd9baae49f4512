package oci

import (
	"errors"
	"fmt"
	"io/fs"
	"os"
	"strings"
	"syscall"

	digest "github.com/opencontainers/go-digest"
)

// kind is a kind of store: where its blobs lie, what holds them from outside, and what hangs on them and goes with them. All else
// is the same for each. Paths are relative to the store's folder.
type kind interface {
	// read finds what lies below a folder that is laid out as the store is: the store's own, which is "", or one of what was
	// moved. Of the store's own it tells what holds from outside, too, and reads that first.
	read(t *tree, below string, l *listing) error
	// place is where a blob lies, and the file there that has its bytes, if the place is no file.
	place(name digest.Digest) (at place, file string)
	// folders are those that must be no links and on the store's device, so that what is moved is nobody else's; the first has
	// all the others.
	folders(t *tree) []string
	// untag writes down what holds without the entries that have no tag, if that is written in one place, and tells how many
	// entries that took out.
	untag(t *tree, top *top) (int, error)
}

// kinds are told apart by what stands in the folder.
var storeKinds = []struct {
	kind
	mark string
}{
	{layout{}, layoutFile},
	{registry{}, registryFolder},
}

// kindAt is the kind of the store in a folder.
func kindAt(path string) (kind, error) {
	var found kind
	t := newTree(path)
	if info, err := os.Stat(path); err != nil {
		return nil, &Fault{Err: err}
	} else if !info.IsDir() {
		return nil, &Fault{Err: fmt.Errorf("%s is no folder", path)}
	}
	for _, one := range storeKinds {
		switch _, err := os.Stat(t.at(one.mark)); {
		case errors.Is(err, fs.ErrNotExist):
		case err != nil:
			return nil, &Fault{Err: err}
		case found != nil:
			return nil, &Fault{Err: errors.New("both an OCI image layout and a registry's folder")}
		default:
			found = one.kind
		}
	}
	if found == nil {
		return nil, &Fault{Err: fmt.Errorf("%s: no OCI image layout, as it has no %s, and no registry's folder, as it has no %s", path, layoutFile, registryFolder)}
	}
	return found, nil
}

// top is what holds blobs from outside: the index of a layout, the tags and revisions of a registry.
type top struct {
	name     string   // as people call it
	entry    string   // what it lists, as people call it
	text     []byte   // holds every blob whose name stands in it
	tagged   []byte   // the same without the entries that have no tag
	lines    bool     // the text is the entries' names and nothing else
	said     *content // what the text says, where that was read
	entries  []descriptor
	untagged int
}

// linesOf is the text of a top that has nothing but names, without some of them.
func (t *top) linesOf(without func(*descriptor) bool) []byte {
	var out []byte
	for k := range t.entries {
		if without == nil || !without(&t.entries[k]) {
			out = append(append(out, t.entries[k].Digest...), '\n')
		}
	}
	return out
}

// tags are the digests that are listed under a tag.
func (t *top) tags(tag string) []digest.Digest {
	var all []digest.Digest
	for _, one := range t.entries {
		if one.tag == tag && tag != "" {
			all = append(all, one.Digest)
		}
	}
	return all
}

// listing is what a kind of store finds in a folder.
type listing struct {
	moved   string // the folder of what was moved
	before  *top   // as it was read before, if it was
	top     *top
	names   []digest.Digest
	linked  map[digest.Digest]bool // those that are symbolic links
	links   []link
	stray   []string
	shared  string
	busy    []int64
	uploads int
}

// blob takes in one; a symbolic link is read through.
func (l *listing) blob(name digest.Digest, symbolic bool) {
	l.names = append(l.names, name)
	if symbolic {
		if l.linked == nil {
			l.linked = map[digest.Digest]bool{}
		}
		l.linked[name] = true
	}
}

// link hangs on a blob and goes with it. It is a folder that has the blob's name, with one file in it.
type link struct {
	name   digest.Digest
	object int   // what it hangs on, 0 if that is not there
	at     place // in the store
	moved  string
	group  int  // of those that one writer may be writing
	gone   bool // it was deleted
	copy   bool // it was moved, and is there besides
}

func (a *link) before(b *link) bool {
	if a.object != b.object {
		return a.object < b.object
	}
	if a.at != b.at {
		return a.at.folder < b.at.folder || a.at.folder == b.at.folder && a.at.name < b.at.name
	}
	// What is in its place goes before what was moved, and what was moved last before the rest.
	return a.moved == "" && b.moved != "" || a.moved > b.moved && b.moved != ""
}

// linkFile is the file in the folder that is a link.
const linkFile = "link"

// shared says why nothing may be moved in a store.
func shared(t *tree, folders []string) string {
	var own, one syscall.Stat_t
	if syscall.Stat(t.path, &own) != nil {
		return ""
	}
	for _, folder := range folders {
		if syscall.Lstat(t.at(folder), &one) != nil {
			continue
		}
		switch one.Mode & syscall.S_IFMT {
		case syscall.S_IFLNK:
			return isLink(folder)
		case syscall.S_IFDIR:
			if one.Dev != own.Dev {
				return folder + " is on another device, so another store may hold what lies there"
			}
		}
	}
	return ""
}

func isLink(folder string) string {
	return folder + " is a link, so another store may hold what lies there"
}

// below is a path in a folder of what was moved, or in the store's own.
func below(folder, path string) string { return strings.TrimPrefix(folder+"/"+path, "/") }

// names are the entries of a folder; one that is not there has none.
func (t *tree) names(path string) ([]string, error) {
	var all []string
	err := t.entries(path, func(name []byte, _ int) { all = append(all, string(name)) })
	if errors.Is(err, fs.ErrNotExist) {
		return nil, nil
	}
	return all, err
}
