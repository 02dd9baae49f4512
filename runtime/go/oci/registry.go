package oci

import (
	"errors"
	"fmt"
	"io/fs"
	"os"
	"sort"
	"strings"

	digest "github.com/opencontainers/go-digest"
)

// registry is the folder of a registry. blobs/ALGORITHM/xx/ENCODED/data are the blobs. The tags of all repositories hold, and
// so do the revisions of manifests that have no tag. On blobs hang the links of repositories: of revisions, of layers, and of
// what a tag has named before.
type registry struct{}

const (
	registryFolder = "docker/registry/v2"
	registryBlobs  = registryFolder + "/blobs"
	repositories   = registryFolder + "/repositories"
	dataFile       = "data"
)

func (registry) read(t *tree, in string, l *listing) error {
	r := &registryReader{tree: t, in: in, listing: l}
	if in == "" {
		l.top = &top{name: "the tags", entry: "revisions", lines: true}
	}
	if err := r.folder(""); err != nil {
		return asFault(err)
	}
	if in == "" {
		// Blobs without any repository are no registry whose tags are gone, but one that was half copied.
		if _, err := os.Stat(t.at(repositories)); errors.Is(err, fs.ErrNotExist) {
			if algorithms, _ := t.names(registryBlobs); len(algorithms) > 0 {
				return &Fault{Err: fmt.Errorf("%s is not there, so what holds the blobs is not known", repositories)}
			}
		}
		l.top.text, l.top.tagged = l.top.linesOf(nil), l.top.linesOf(func(one *descriptor) bool { return one.tag == "" })
	}
	return asFault(r.blobs())
}

func (registry) place(name digest.Digest) (place, string) {
	encoded := name.Encoded()
	return place{registryBlobs + "/" + name.Algorithm().String(), encoded[:2] + "/" + encoded}, dataFile
}

func (registry) folders(t *tree) []string {
	all := []string{"docker", "docker/registry", registryFolder, registryBlobs, repositories}
	algorithms, _ := t.names(registryBlobs)
	for _, algorithm := range algorithms {
		all = append(all, registryBlobs+"/"+algorithm)
	}
	return all
}

// untag does nothing: a revision without a tag is written down where its link is, and goes with its blob.
func (registry) untag(*tree, *top) (int, error) { return 0, nil }

func asFault(err error) error {
	var fault *Fault
	if err == nil || errors.As(err, &fault) {
		return err
	}
	return &Fault{Err: err}
}

// registryReader goes over the folders of a registry.
type registryReader struct {
	*tree
	*listing
	in string
}

// each goes over a folder, by name; one that is not there has nothing in it.
func (r *registryReader) each(path string, do func(name string, kind int) error) error {
	type entry struct {
		name string
		kind int
	}
	var all []entry
	err := r.tree.entries(below(r.in, path), func(name []byte, kind int) { all = append(all, entry{string(name), kind}) })
	if errors.Is(err, fs.ErrNotExist) {
		return nil
	}
	if err != nil {
		return err
	}
	sort.Slice(all, func(a, b int) bool { return all[a].name < all[b].name })
	for _, one := range all {
		if err := do(one.name, one.kind); err != nil {
			return err
		}
	}
	return nil
}

// folders goes over the folders in a folder. A link is gone through, and then nothing is moved; anything else is stray.
func (r *registryReader) folders(path string, do func(name, path string) error) error {
	return r.each(path, func(name string, kind int) error {
		path := path + "/" + name
		switch kind {
		case linkEntry:
			r.shared = isLink(path)
		case folderEntry:
		default:
			r.stray = append(r.stray, below(r.in, path))
			return nil
		}
		return do(name, path)
	})
}

// blobs takes in every folder that has the name of a blob; look finds out whether its bytes are there.
func (r *registryReader) blobs() error {
	return r.folders(registryBlobs, func(algorithm, path string) error {
		return r.folders(path, func(prefix, path string) error {
			return r.tree.entries(below(r.in, path), func(file []byte, kind int) {
				name := digest.Digest(algorithm + ":" + string(file))
				if kind != folderEntry && kind != linkEntry || !strings.HasPrefix(string(file), prefix) || len(prefix) != 2 || !valid(name) {
					r.stray = append(r.stray, below(r.in, path+"/"+string(file)))
					return
				}
				r.blob(name, kind == linkEntry)
			})
		})
	})
}

// folder goes over the repositories below a name, and over the one of that name.
func (r *registryReader) folder(name string) error {
	group := -1
	return r.folders(strings.TrimSuffix(repositories+"/"+name, "/"), func(part, path string) error {
		if !strings.HasPrefix(part, "_") {
			return r.folder(strings.TrimPrefix(name+"/"+part, "/"))
		}
		if group < 0 {
			group = len(r.busy)
			r.busy = append(r.busy, 0)
		}
		switch part {
		case "_manifests":
			return r.manifests(name, path, group)
		case "_layers":
			return r.hanging(path, group, nil)
		case "_uploads":
			return r.folders(path, func(_, path string) error {
				r.uploads++
				for _, file := range []string{path, path + "/" + dataFile} {
					if info, err := os.Stat(r.at(below(r.in, file))); err == nil && info.ModTime().UnixNano() > r.busy[group] {
						r.busy[group] = info.ModTime().UnixNano()
					}
				}
				return nil
			})
		}
		r.stray = append(r.stray, below(r.in, path))
		return nil
	})
}

// manifests reads the tags of a repository, and then its revisions.
func (r *registryReader) manifests(name, path string, group int) error {
	tagged := map[digest.Digest]bool{}
	err := r.folders(path+"/tags", func(tag, path string) error {
		if r.in == "" {
			current, err := r.current(path + "/current/" + linkFile)
			if err != nil {
				return err
			}
			if current != "" {
				tagged[current] = true
				r.top.entries = append(r.top.entries, descriptor{Digest: current, listed: true, tag: name + ":" + tag})
			}
		}
		return r.hanging(path+"/index", group, nil)
	})
	if err != nil {
		return err
	}
	return r.hanging(path+"/revisions", group, func(revision digest.Digest, path string) error {
		if r.in != "" || tagged[revision] {
			return nil
		}
		// Where the registry has deleted a manifest, the folder stands without a link.
		switch _, err := os.Lstat(r.at(path + "/" + linkFile)); {
		case errors.Is(err, fs.ErrNotExist):
			return nil
		case err != nil:
			return err
		}
		r.top.untagged++
		r.top.entries = append(r.top.entries, descriptor{Digest: revision, listed: true})
		return nil
	})
}

// current is what a tag names, and empty if it names nothing.
func (r *registryReader) current(path string) (digest.Digest, error) {
	text, err := os.ReadFile(r.at(path))
	if errors.Is(err, fs.ErrNotExist) {
		return "", nil
	}
	if err != nil {
		return "", err
	}
	name := digest.Digest(strings.TrimSpace(string(text)))
	if !valid(name) {
		return "", fmt.Errorf("%s: %q is no digest", path, name)
	}
	return name, nil
}

// hanging takes in the links of a folder, and tells them to `each`, by name.
func (r *registryReader) hanging(path string, group int, each func(digest.Digest, string) error) error {
	return r.folders(path, func(algorithm, folder string) error {
		begin := len(r.links)
		err := r.tree.entries(below(r.in, folder), func(file []byte, kind int) {
			name := digest.Digest(algorithm + ":" + string(file))
			if kind != folderEntry && kind != linkEntry || !valid(name) {
				r.stray = append(r.stray, below(r.in, folder+"/"+string(file)))
				return
			}
			if kind == linkEntry {
				r.shared = isLink(folder + "/" + string(file))
			}
			r.links = append(r.links, link{name: name, at: place{folder, name.Encoded()}, group: group})
		})
		if err != nil && !errors.Is(err, fs.ErrNotExist) {
			return err
		}
		if each == nil {
			return nil
		}
		found := r.links[begin:]
		sort.Slice(found, func(a, b int) bool { return found[a].name < found[b].name })
		for _, one := range found {
			if err := each(one.name, one.at.path()); err != nil {
				return err
			}
		}
		return nil
	})
}
