package oci

import (
	"context"
	"errors"
	"fmt"
	"io/fs"
	"os"
	"path/filepath"
	"strings"
	"testing"
	"time"

	digest "github.com/opencontainers/go-digest"
)

// mirror is a registry's folder that a test writes, as the registry does.
type mirror struct{ *folder }

func newMirror(t *testing.T) *mirror {
	m := &mirror{&folder{t: t, path: t.TempDir()}}
	for _, path := range []string{registryBlobs + "/sha256", repositories} {
		if err := os.MkdirAll(filepath.Join(m.path, path), 0o755); err != nil {
			t.Fatal(err)
		}
	}
	return m
}

func dataOf(name digest.Digest) string {
	at, file := registry{}.place(name)
	return at.path() + "/" + file
}

func (m *mirror) blob(content string) digest.Digest {
	name := digest.FromString(content)
	m.write(dataOf(name), content)
	return name
}

func linkOf(repository, kind string, name digest.Digest) string {
	return repositories + "/" + repository + "/" + kind + "/sha256/" + name.Encoded() + "/link"
}

const (
	layers    = "_layers"
	revisions = "_manifests/revisions"
)

// push writes an image into a repository and answers all of its blobs, the manifest first. Without a tag it is pushed by digest.
func (m *mirror) push(repository, tag, name string, subject digest.Digest, parts ...string) []digest.Digest {
	all, list := []digest.Digest{""}, []string{}
	for _, part := range parts {
		one := m.blob("layer " + part)
		m.write(linkOf(repository, layers, one), string(one))
		all, list = append(all, one), append(list, fmt.Sprintf(`{"digest":"%s"}`, one))
	}
	text := fmt.Sprintf(`{"schemaVersion":2,"layers":[%s],"annotations":{"name":"%s"}`, strings.Join(list, ","), name)
	if subject != "" {
		text += fmt.Sprintf(`,"subject":{"digest":"%s"}`, subject)
	}
	all[0] = m.blob(text + "}")
	m.revision(repository, tag, all[0])
	return all
}

// index writes an index of manifests.
func (m *mirror) index(repository, tag string, manifests ...digest.Digest) digest.Digest {
	var list []string
	for _, one := range manifests {
		list = append(list, fmt.Sprintf(`{"digest":"%s"}`, one))
	}
	name := m.blob(`{"schemaVersion":2,"manifests":[` + strings.Join(list, ",") + `]}`)
	m.revision(repository, tag, name)
	return name
}

func (m *mirror) revision(repository, tag string, name digest.Digest) {
	m.write(linkOf(repository, revisions, name), string(name))
	if tag != "" {
		m.write(linkOf(repository, "_manifests/tags/"+tag+"/index", name), string(name))
		m.write(repositories+"/"+repository+"/_manifests/tags/"+tag+"/current/link", string(name))
	}
}

func (m *mirror) untag(repository, tag string) {
	if err := os.RemoveAll(filepath.Join(m.path, repositories, repository, "_manifests/tags", tag)); err != nil {
		m.t.Fatal(err)
	}
}

// unlink is what the registry does with a manifest that is deleted: its link goes, the folder of the link stays.
func (m *mirror) unlink(repository, tag string, name digest.Digest) {
	m.untag(repository, tag)
	if err := os.Remove(filepath.Join(m.path, linkOf(repository, revisions, name))); err != nil {
		m.t.Fatal(err)
	}
}

func (m *mirror) has(path string) bool {
	_, err := os.Lstat(filepath.Join(m.path, path))
	return err == nil
}

func (m *mirror) hasAll(names ...digest.Digest) bool {
	for _, name := range names {
		if !m.has(dataOf(name)) {
			return false
		}
	}
	return true
}

func (m *mirror) plan(s Settings) *Plan {
	m.t.Helper()
	store, err := Open(context.Background(), m.path, Options{Verify: true})
	if err != nil {
		m.t.Fatal(err)
	}
	plan, err := store.Plan(context.Background(), s)
	if err != nil {
		m.t.Fatal(err)
	}
	return plan
}

// files are all that stand in the folder.
func (m *mirror) files() string {
	var all []string
	filepath.WalkDir(m.path, func(path string, entry fs.DirEntry, err error) error {
		if !entry.IsDir() {
			all = append(all, path)
		}
		return err
	})
	return strings.Join(all, "\n")
}

// whole says whether every manifest that can be found has all that it names: by a revision's link and its bytes a manifest is
// found, by a layer's link and its bytes a layer.
func (m *mirror) whole(images map[string][]digest.Digest) {
	m.t.Helper()
	for where, all := range images {
		repository := strings.SplitN(where, " ", 2)[0]
		if !m.has(linkOf(repository, revisions, all[0])) || !m.hasAll(all[0]) {
			continue
		}
		for _, one := range all[1:] {
			kind := layers
			if strings.HasSuffix(where, "index") {
				kind = revisions
			}
			if !m.hasAll(one) || !m.has(linkOf(repository, kind, one)) {
				m.t.Errorf("%s: %s is found, and %s is not", where, all[0], one)
			}
		}
	}
}

func TestRegistryHeld(t *testing.T) {
	m := newMirror(t)
	shared := m.push("plant/a/app", "one", "one", "", "base", "one")
	gone := m.push("plant/a/app", "two", "two", "", "base", "two")
	m.push("plant/b", "same", "one", "", "base", "one")
	arm, amd := m.push("other", "", "arm", "", "arm"), m.push("other", "", "amd", "", "amd")
	both := m.index("other", "both", arm[0], amd[0])
	signature := m.push("other", "", "signature", both, "signature")
	if plan := m.plan(Settings{}); len(plan.Dead) != 0 || plan.Untagged != 3 || plan.UntaggedFreed != 0 {
		t.Error(plan.Dead, plan.Untagged, plan.UntaggedFreed)
	}
	// A tag is gone: its revision holds until it is not to.
	m.untag("plant/a/app", "two")
	if plan := m.plan(Settings{}); len(plan.Dead) != 0 || plan.Untagged != 4 || plan.UntaggedFreed == 0 {
		t.Error(plan.Dead, plan.Untagged, plan.UntaggedFreed)
	}
	if plan := m.plan(Settings{Untagged: true}); len(plan.Dead) != 2 {
		t.Error(plan.Dead)
	}
	result := m.must(PruneSettings{Settings: Settings{Untagged: true}})
	if len(result.Deleted) != 2 || m.hasAll(gone[0]) || m.hasAll(gone[2]) || !m.hasAll(shared...) || !m.hasAll(both, arm[0], arm[1], amd[0], amd[1]) || !m.hasAll(signature...) {
		t.Error(result.Deleted)
	}
	if m.has(filepath.Dir(linkOf("plant/a/app", revisions, gone[0]))) || m.has(filepath.Dir(linkOf("plant/a/app", layers, gone[2]))) || !m.has(linkOf("plant/a/app", layers, gone[1])) {
		t.Error("links of what is dead, or others")
	}
	if m.has(ownFolder) || m.has(filepath.Dir(dataOf(gone[0]))) {
		t.Error(m.files())
	}
	// One repository lets go, the other holds.
	m.unlink("plant/a/app", "one", shared[0])
	if result := m.must(PruneSettings{}); len(result.Deleted) != 0 || !m.hasAll(shared...) {
		t.Error(result.Deleted)
	}
	m.unlink("plant/b", "same", shared[0])
	if result := m.must(PruneSettings{}); len(result.Deleted) != 3 || m.hasAll(shared[0]) || m.has(linkOf("plant/b", layers, shared[1])) {
		t.Error(result.Deleted)
	}
	if store, err := Open(context.Background(), m.path, Options{}); err != nil || len(store.Stray) != 0 {
		t.Error(err, store.Stray)
	}
}

func TestRegistryKept(t *testing.T) {
	m := newMirror(t)
	m.push("a", "live", "live", "", "1")
	dead := m.push("a", "dead", "dead", "", "2")
	for _, tag := range []string{"a:dead", "a:none"} {
		_, err := m.prune(PruneSettings{Settings: Settings{Untagged: true}, Tags: []string{tag}})
		if (err != nil) != (tag == "a:none") {
			t.Error(tag, err)
		}
	}
	m.untag("a", "dead")
	if plan := m.plan(Settings{Untagged: true, Keep: dead[:1]}); len(plan.Dead) != 0 {
		t.Error(plan.Dead)
	}
	m.untag("a", "live")
	if _, err := m.prune(PruneSettings{Settings: Settings{Untagged: true}}); err == nil || !m.hasAll(dead...) {
		t.Error("no tag at all:", err)
	}
}

// Blobs, links and uploads that are younger than the grace hold.
func TestRegistryGrace(t *testing.T) {
	m := newMirror(t)
	m.push("a", "live", "live", "", "1")
	dead := m.push("a", "dead", "dead", "", "2")
	m.unlink("a", "dead", dead[0])
	settings := PruneSettings{Retention: time.Hour, Settings: Settings{Grace: time.Hour}}
	if result := m.must(settings); len(result.Moved) != 0 || result.Plan.Young != 2 {
		t.Error(result.Moved, result.Plan.Young)
	}
	// The time at which a name was changed cannot be set, so the grace is short, and what is young is of the future.
	later := time.Now().Add(time.Hour)
	time.Sleep(20 * time.Millisecond)
	settings.Grace = 10 * time.Millisecond
	link := filepath.Join(m.path, linkOf("a", layers, dead[1]))
	if err := os.Chtimes(link, later, later); err != nil {
		t.Fatal(err)
	}
	if plan := m.plan(settings.Settings); len(plan.Dead) != 1 || plan.Dead[0].Digest != dead[0] {
		t.Error("a young link:", plan.Dead)
	}
	past := time.Now().Add(-time.Hour)
	if err := os.Chtimes(link, past, past); err != nil {
		t.Fatal(err)
	}
	if plan := m.plan(settings.Settings); len(plan.Dead) != 2 {
		t.Error(plan.Dead)
	}
	upload := repositories + "/a/_uploads/0b3e/data"
	m.write(upload, "a part")
	if err := os.Chtimes(filepath.Join(m.path, upload), later, later); err != nil {
		t.Fatal(err)
	}
	if plan := m.plan(settings.Settings); len(plan.Dead) != 0 {
		t.Error("an upload:", plan.Dead)
	}
	for _, path := range []string{upload, filepath.Dir(upload)} {
		if err := os.Chtimes(filepath.Join(m.path, path), past, past); err != nil {
			t.Fatal(err)
		}
	}
	if result := m.must(settings); len(result.Moved) != 2 || result.Store.Uploads != 1 || !m.has(upload) {
		t.Error("an old upload:", result.Moved, result.Store.Uploads)
	}
}

// What is named again comes back with its links, and what has lain long enough goes with them.
func TestRegistryPutBack(t *testing.T) {
	m := newMirror(t)
	m.push("a", "live", "live", "", "1")
	dead, other := m.push("a/b", "dead", "dead", "", "1", "2"), m.push("a", "other", "other", "", "3")
	m.unlink("a/b", "dead", dead[0])
	m.unlink("a", "other", other[0])
	result := m.must(PruneSettings{Retention: time.Hour})
	if len(result.Moved) != 4 || result.Links != 4 || m.has(filepath.Dir(linkOf("a/b", layers, dead[2]))) {
		t.Error(result.Moved, result.Links)
	}
	m.write(repositories+"/a/b/_manifests/tags/again/current/link", string(dead[0]))
	result, err := Restore(context.Background(), m.path, PruneSettings{})
	if err != nil || len(result.PutBack) != 2 || !m.hasAll(dead...) || !m.has(linkOf("a/b", layers, dead[2])) {
		t.Error(err, result.PutBack)
	}
	time.Sleep(20 * time.Millisecond)
	if result := m.must(PruneSettings{Retention: time.Millisecond}); len(result.Deleted) != 2 || result.Links != 2 || m.has(ownFolder) {
		t.Error(result.Deleted, result.Links, m.files())
	}
	// Who writes it anew is not overwritten.
	m.untag("a/b", "again")
	m.must(PruneSettings{Retention: time.Hour, Settings: Settings{Untagged: true}})
	m.push("a/b", "anew", "dead", "", "1", "2")
	result = m.must(PruneSettings{Retention: time.Hour})
	if len(result.PutBack) != 0 || !m.hasAll(dead...) {
		t.Error(result.PutBack)
	}
	if result := m.must(PruneSettings{}); !m.hasAll(dead...) || m.has(ownFolder) {
		t.Error(result.Deleted, m.files())
	}
}

// Each of these is a fault, and nothing is moved.
func TestRegistryFaults(t *testing.T) {
	cases := map[string]func(*mirror, []digest.Digest){
		"a tag that names nothing": func(m *mirror, _ []digest.Digest) {
			m.write(repositories+"/a/_manifests/tags/live/current/link", "")
		},
		"a tag that names no digest": func(m *mirror, _ []digest.Digest) {
			m.write(repositories+"/a/_manifests/tags/live/current/link", "sha256:../../x")
		},
		"a tag's manifest is absent": func(m *mirror, live []digest.Digest) { os.Remove(filepath.Join(m.path, dataOf(live[0]))) },
		"a tag's manifest is damaged": func(m *mirror, live []digest.Digest) {
			m.write(dataOf(live[0]), `{"schemaVersion":2,"layers":[]}`)
		},
		"a revision's manifest is absent": func(m *mirror, _ []digest.Digest) {
			one := m.push("a", "", "revision", "")
			os.Remove(filepath.Join(m.path, dataOf(one[0])))
		},
		"a repository is a link": func(m *mirror, _ []digest.Digest) {
			os.Rename(filepath.Join(m.path, repositories, "a"), filepath.Join(m.path, "elsewhere"))
			os.Symlink("../../../../elsewhere", filepath.Join(m.path, repositories, "a"))
		},
		"a folder of blobs is a link": func(m *mirror, live []digest.Digest) {
			place := filepath.Join(m.path, filepath.Dir(filepath.Dir(dataOf(live[0]))))
			os.Rename(place, filepath.Join(m.path, "elsewhere"))
			os.Symlink(filepath.Join(m.path, "elsewhere"), place)
		},
		"the repositories are not there": func(m *mirror, _ []digest.Digest) {
			os.RemoveAll(filepath.Join(m.path, repositories))
		},
		"both kinds": func(m *mirror, _ []digest.Digest) { m.write("oci-layout", `{"imageLayoutVersion":"1.0.0"}`) },
	}
	for name, damage := range cases {
		t.Run(name, func(t *testing.T) {
			m := newMirror(t)
			live, dead := m.push("a", "live", "live", "", "1"), m.push("a", "dead", "dead", "", "2")
			m.unlink("a", "dead", dead[0])
			damage(m, live)
			if _, err := m.prune(PruneSettings{}); err == nil || errors.Is(err, ErrPartly) || !m.hasAll(dead...) || m.has(ownFolder) {
				t.Error(err)
			}
		})
	}
	m := newMirror(t)
	if _, err := m.prune(PruneSettings{}); err != nil {
		t.Error("an empty registry:", err)
	}
	if _, err := Open(context.Background(), t.TempDir(), Options{}); err == nil || !strings.Contains(err.Error(), registryFolder) {
		t.Error(err)
	}
}

func TestRegistryStray(t *testing.T) {
	m := newMirror(t)
	dead := m.push("a", "dead", "dead", "", "1")
	m.push("a", "live", "live", "", "2")
	m.unlink("a", "dead", dead[0])
	stray := []string{registryBlobs + "/sha256/ab/notes", registryBlobs + "/notes", repositories + "/notes", repositories + "/a/_other/notes", repositories + "/a/_layers/sha256/notes/link"}
	for _, path := range stray {
		m.write(path, "stray")
	}
	// A blob's file may be a link: it is read through, and stays.
	linked := m.push("a", "linked", "linked", "", "3")
	place := filepath.Join(m.path, dataOf(linked[0]))
	if err := os.Rename(place, filepath.Join(m.path, "elsewhere")); err != nil {
		t.Fatal(err)
	}
	if err := os.Symlink(filepath.Join(m.path, "elsewhere"), place); err != nil {
		t.Fatal(err)
	}
	m.unlink("a", "linked", linked[0])
	result := m.must(PruneSettings{})
	if len(result.Store.Stray) != len(stray) || len(result.Deleted) != 2 || !m.hasAll(linked...) {
		t.Error(result.Store.Stray, result.Deleted)
	}
	for _, path := range stray {
		if !m.has(path) {
			t.Error(path)
		}
	}
}

// drawn is a registry in which much is dead: an index of two platforms, in an index of indexes, with a signature, in two repositories.
func drawn(t *testing.T) (*mirror, map[string][]digest.Digest) {
	m := newMirror(t)
	images := map[string][]digest.Digest{"a live": m.push("a", "live", "live", "", "base", "live")}
	for _, repository := range []string{"a", "b/c"} {
		one, two := m.push(repository, "", "one", "", "base", "one"), m.push(repository, "", "two", "", "base", "two")
		inner := m.index(repository, "", one[0], two[0])
		outer := m.index(repository, "dead", inner)
		signature := m.push(repository, "", "signature", outer, "signature")
		images[repository+" one"], images[repository+" two"], images[repository+" signature"] = one, two, signature
		images[repository+" inner index"] = []digest.Digest{inner, one[0], two[0]}
		images[repository+" outer index"] = []digest.Digest{outer, inner}
		m.untag(repository, "dead")
	}
	return m, images
}

// steps is how many renames, and then deletions, a prune of the drawn registry makes.
func steps(t *testing.T, s PruneSettings) (renames, removes int) {
	m, _ := drawn(t)
	renameFile = func(in *tree, from, to place) error { renames++; return in.rename(from, to) }
	removeFile = func(in *tree, at place) error { removes++; return in.remove(at) }
	m.must(s)
	renameFile, removeFile = (*tree).rename, (*tree).remove
	return renames, removes
}

var errStep = errors.New("a fault at this step")

// A prune that ends at any step, or fails at one, leaves no manifest without what it names; the next one does the rest, or puts all back.
func TestRegistrySteps(t *testing.T) {
	settings := PruneSettings{Settings: Settings{Untagged: true}}
	renames, removes := steps(t, settings)
	if renames < 20 || removes < 20 {
		t.Fatalf("only %d and %d steps", renames, removes)
	}
	for _, way := range []string{"ends", "fails"} {
		for step := 0; step < renames+removes; step++ {
			for _, again := range []string{"prune", "restore"} {
				// What was deleted does not come back, and what failed and ended are put back in the same way.
				if again == "restore" && (step >= renames || way == "fails") {
					continue
				}
				m, images := drawn(t)
				count := -1
				fault := func() error {
					count++
					switch {
					case count == step && way == "fails":
						return errStep
					case count >= step && way == "ends":
						panic(errStep)
					}
					return nil
				}
				renameFile = func(in *tree, from, to place) error {
					if err := fault(); err != nil {
						return err
					}
					return in.rename(from, to)
				}
				removeFile = func(in *tree, at place) error {
					if err := fault(); err != nil {
						return err
					}
					return in.remove(at)
				}
				var err error
				func() {
					defer func() {
						if ended := recover(); ended != nil && ended != errStep {
							panic(ended)
						}
					}()
					_, err = m.prune(settings)
				}()
				renameFile, removeFile = (*tree).rename, (*tree).remove
				if way == "fails" && err == nil {
					t.Fatal(step, err)
				}
				m.whole(images)
				live := images["a live"]
				if again == "restore" {
					// A push names all of it again, and then what was not deleted comes back.
					for where, image := range images {
						m.write(repositories+"/"+strings.SplitN(where, " ", 2)[0]+"/_manifests/tags/t"+image[0].Encoded()[:8]+"/current/link", string(image[0]))
					}
					if _, err := Restore(context.Background(), m.path, PruneSettings{}); err != nil {
						t.Fatal(way, step, err)
					}
					if left, _ := filepath.Glob(filepath.Join(m.path, movedFolder, "*", "*")); len(left) != 0 {
						t.Error(way, step, "not put back:", left)
					}
				} else {
					if _, err := m.prune(settings); err != nil || m.has(ownFolder) {
						t.Fatal(way, step, err, m.files())
					}
					if plan := m.plan(settings.Settings); len(plan.Dead) != 0 || len(plan.Moved) != 0 || plan.Untagged != 0 {
						t.Error(way, step, plan.Dead, plan.Moved, plan.Untagged)
					}
				}
				if !m.hasAll(live...) || !m.has(linkOf("a", layers, live[1])) {
					t.Fatal(way, step, "what lives is gone")
				}
				if t.Failed() {
					t.Fatal(way, step, again)
				}
			}
		}
	}
}

// A tag, a revision and a link that come while something is moved: all is put back that they name.
func TestRegistryPushWhileMoving(t *testing.T) {
	settings := PruneSettings{Settings: Settings{Untagged: true}}
	renames, _ := steps(t, settings)
	for step := 0; step < renames; step++ {
		m, images := drawn(t)
		count := -1
		renameFile = func(in *tree, from, to place) error {
			if count++; count == step {
				image := images["b/c outer index"]
				m.write(repositories+"/b/c/_manifests/tags/again/current/link", string(image[0]))
			}
			return in.rename(from, to)
		}
		_, err := m.prune(settings)
		renameFile = (*tree).rename
		if err != nil {
			t.Fatal(step, err)
		}
		for _, name := range []string{"one", "two", "inner index", "outer index"} {
			image := images["b/c "+name]
			if !m.hasAll(image...) || !m.has(linkOf("b/c", revisions, image[0])) {
				t.Fatal(step, name, "is not put back")
			}
		}
		m.whole(images)
	}
	m := newMirror(t)
	live, dead := m.push("a", "live", "live", "", "1"), m.push("a", "dead", "dead", "", "2")
	m.unlink("a", "dead", dead[0])
	renameFile = func(in *tree, from, to place) error {
		err := in.rename(from, to)
		// A push mounts the layer into another repository.
		m.write(linkOf("new", layers, dead[1]), string(dead[1]))
		return err
	}
	result, err := m.prune(PruneSettings{Retention: time.Hour, Settings: Settings{Grace: time.Nanosecond}})
	renameFile = (*tree).rename
	if err != nil || !m.hasAll(live...) {
		t.Error(err, result.PutBack)
	}
}
