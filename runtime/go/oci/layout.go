package oci

import (
	"bytes"
	"encoding/json"
	"errors"
	"fmt"
	"os"
	"path/filepath"
	"sort"

	digest "github.com/opencontainers/go-digest"
	v1 "github.com/opencontainers/image-spec/specs-go/v1"
)

// layout is an OCI image layout: index.json holds, and blobs/ALGORITHM/ENCODED are the blobs. Nothing hangs on them.
type layout struct{}

const (
	layoutFile = v1.ImageLayoutFile
	indexFile  = "index.json"
	blobs      = "blobs"
)

func (layout) read(t *tree, in string, l *listing) error {
	if in == "" {
		var err error
		if l.top, err = readLayout(t, l.before); err != nil {
			return err
		}
	}
	folder := below(in, blobs)
	algorithms, err := t.names(folder)
	if err != nil {
		return &Fault{Err: err}
	}
	sort.Strings(algorithms)
	for _, algorithm := range algorithms {
		folder := folder + "/" + algorithm
		info, err := os.Stat(t.at(folder))
		if err != nil || !info.IsDir() {
			l.stray = append(l.stray, folder)
			continue
		}
		known := digest.Algorithm(algorithm).Available()
		err = t.entries(folder, func(file []byte, kind int) {
			name := digest.Digest(algorithm + ":" + string(file))
			if kind != fileEntry && kind != linkEntry || known && !valid(name) {
				l.stray = append(l.stray, folder+"/"+string(file))
				return
			}
			l.blob(name, kind == linkEntry)
		})
		if err != nil {
			return &Fault{Err: err}
		}
	}
	return nil
}

func (layout) place(name digest.Digest) (place, string) {
	const common = "sha256:"
	if len(name) > len(common) && name[:len(common)] == common {
		return place{blobs + "/sha256", string(name[len(common):])}, ""
	}
	return place{blobs + "/" + name.Algorithm().String(), name.Encoded()}, ""
}

func (layout) folders(t *tree) []string {
	all := []string{blobs}
	algorithms, _ := t.names(blobs)
	for _, algorithm := range algorithms {
		all = append(all, blobs+"/"+algorithm)
	}
	return all
}

// readLayout checks the file oci-layout and reads index.json. Here every fault counts.
func readLayout(t *tree, before *top) (*top, error) {
	text, err := os.ReadFile(t.at(layoutFile))
	if err != nil {
		return nil, &Fault{Err: fmt.Errorf("no OCI image layout: %w", err)}
	}
	var head v1.ImageLayout
	if err := json.Unmarshal(text, &head); err != nil {
		return nil, &Fault{Err: fmt.Errorf("%s: %w", layoutFile, err)}
	}
	if head.Version != v1.ImageLayoutVersion {
		return nil, &Fault{Err: fmt.Errorf("%s: version %q, where %s is known", layoutFile, head.Version, v1.ImageLayoutVersion)}
	}
	if text, err = os.ReadFile(t.at(indexFile)); err != nil {
		return nil, &Fault{Err: err}
	}
	if before != nil && bytes.Equal(before.text, text) {
		return before, nil
	}
	return readIndex(text)
}

// readIndex reads index.json as an index.
func readIndex(text []byte) (*top, error) {
	c := parse(text)
	if c == nil || c.kind != Index && c.fault == nil {
		return nil, &Fault{Err: fmt.Errorf("%s: no image index", indexFile)}
	}
	if c.fault != nil && !errors.Is(c.fault, digest.ErrDigestUnsupported) {
		return nil, &Fault{Err: fmt.Errorf("%s: %w", indexFile, c.fault)}
	}
	top := &top{name: indexFile, entry: "entries of " + indexFile, text: text, said: c}
	for _, one := range c.refers {
		if one.listed {
			one.tag = tagOf(one)
			top.entries = append(top.entries, one)
		}
	}
	return top, top.withoutUntagged()
}

// tagOf is the tag of an entry of index.json, if it has one.
func tagOf(one descriptor) string {
	if tag := one.Annotations[v1.AnnotationRefName]; tag != "" {
		return tag
	}
	return one.Annotations["io.containerd.image.name"]
}

// withoutUntagged makes index.json without the entries that have no tag; the rest of it stays as it is.
func (t *top) withoutUntagged() error {
	t.tagged = t.text
	decoder := json.NewDecoder(bytes.NewReader(t.text))
	if _, err := decoder.Token(); err != nil {
		return &Fault{Err: fmt.Errorf("%s: %w", indexFile, err)}
	}
	found := false
	var out []byte
	for decoder.More() {
		key, err := decoder.Token()
		if err != nil {
			return &Fault{Err: fmt.Errorf("%s: %w", indexFile, err)}
		}
		if key != "manifests" {
			var other json.RawMessage
			if err := decoder.Decode(&other); err != nil {
				return &Fault{Err: fmt.Errorf("%s: %w", indexFile, err)}
			}
			continue
		}
		var entries []json.RawMessage
		var list json.RawMessage
		if err := decoder.Decode(&list); err != nil {
			return &Fault{Err: fmt.Errorf("%s: %w", indexFile, err)}
		}
		if err := json.Unmarshal(list, &entries); err != nil || found {
			return &Fault{Err: fmt.Errorf("%s: no one list of manifests", indexFile)}
		}
		found = true
		end := int(decoder.InputOffset())
		var kept [][]byte
		for _, entry := range entries {
			one, err := read(entry)
			if err == nil && tagOf(one) == "" {
				t.untagged++
				continue
			}
			kept = append(kept, entry)
		}
		out = append(append(out, t.text[:end-len(list)]...), '[')
		out = append(append(append(out, bytes.Join(kept, []byte(","))...), ']'), t.text[end:]...)
	}
	if t.untagged > 0 {
		t.tagged = out
	}
	return nil
}

// untag writes index.json without its untagged entries, beside it, and renames it, if index.json is as it was read.
func (layout) untag(t *tree, top *top) (int, error) {
	path := t.at(indexFile)
	info, err := os.Lstat(path)
	if err != nil {
		return 0, err
	}
	if !info.Mode().IsRegular() {
		return 0, &Fault{Err: errors.New("index.json is a link, and is not written")}
	}
	file, err := os.CreateTemp(t.path, ".index.json.*")
	if err != nil {
		return 0, err
	}
	defer os.Remove(file.Name())
	_, err = file.Write(top.tagged)
	if err == nil {
		err = file.Chmod(info.Mode().Perm())
	}
	if err == nil {
		err = file.Sync()
	}
	if closed := file.Close(); err == nil {
		err = closed
	}
	if err != nil {
		return 0, err
	}
	now, err := os.ReadFile(path)
	if err != nil {
		return 0, err
	}
	if !bytes.Equal(now, top.text) {
		return 0, &Fault{Err: errors.New("index.json has changed meanwhile; nothing was taken out of it")}
	}
	return top.untagged, renameFile(t, place{"", filepath.Base(file.Name())}, place{"", indexFile})
}
