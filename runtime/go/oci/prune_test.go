package oci

import (
	"context"
	"encoding/json"
	"errors"
	"fmt"
	"math/rand"
	"os"
	"path/filepath"
	"reflect"
	"strings"
	"testing"
	"time"

	digest "github.com/opencontainers/go-digest"
)

// folder is a layout that a test of the inside writes.
type folder struct {
	t    *testing.T
	path string
	list []map[string]any
}

func newFolder(t *testing.T) *folder {
	f := &folder{t: t, path: t.TempDir()}
	f.write("oci-layout", `{"imageLayoutVersion":"1.0.0"}`)
	f.save()
	return f
}

func (f *folder) write(name, content string) {
	path := filepath.Join(f.path, name)
	if err := os.MkdirAll(filepath.Dir(path), 0o755); err != nil {
		f.t.Fatal(err)
	}
	if err := os.WriteFile(path, []byte(content), 0o644); err != nil {
		f.t.Fatal(err)
	}
}

func (f *folder) save() {
	text, _ := json.Marshal(map[string]any{"schemaVersion": 2, "manifests": f.list})
	f.write("index.json", string(text))
}

func (f *folder) put(content string) digest.Digest {
	name := digest.FromString(content)
	f.write("blobs/sha256/"+name.Encoded(), content)
	return name
}

// image writes a manifest with these layers and answers all of its blobs, the manifest first.
func (f *folder) image(name string, layers ...string) []digest.Digest {
	all := []digest.Digest{""}
	var list []map[string]any
	for _, layer := range layers {
		one := f.put("layer " + layer)
		all = append(all, one)
		list = append(list, map[string]any{"digest": one})
	}
	text, _ := json.Marshal(map[string]any{"schemaVersion": 2, "layers": list, "annotations": map[string]string{"name": name}})
	all[0] = f.put(string(text))
	return all
}

func (f *folder) tag(name digest.Digest, tag string) {
	entry := map[string]any{"digest": name}
	if tag != "" {
		entry["annotations"] = map[string]string{"org.opencontainers.image.ref.name": tag}
	}
	f.list = append(f.list, entry)
	f.save()
}

func (f *folder) there(names ...digest.Digest) bool {
	for _, name := range names {
		if _, err := os.Stat(filepath.Join(f.path, "blobs/sha256", name.Encoded())); err != nil {
			return false
		}
	}
	return true
}

func (f *folder) prune(s PruneSettings) (*Result, error) {
	return Prune(context.Background(), f.path, s)
}

// must is a prune without a fault.
func (f *folder) must(s PruneSettings) *Result {
	f.t.Helper()
	result, err := f.prune(s)
	if err != nil {
		f.t.Fatal(err)
	}
	return result
}

// age lets what was moved have lain there for so long: its folder is renamed. The times of the files cannot be set, so tests of
// the retention wait a moment.
func (f *folder) age(by time.Duration) {
	top := filepath.Join(f.path, movedFolder)
	folders, _ := os.ReadDir(top)
	for _, one := range folders {
		at, err := time.Parse(timeFormat, one.Name())
		if err != nil {
			f.t.Fatal(err)
		}
		if err := os.Rename(filepath.Join(top, one.Name()), filepath.Join(top, at.Add(-by).Format(timeFormat))); err != nil {
			f.t.Fatal(err)
		}
	}
}

func TestMovedAndDeleted(t *testing.T) {
	f := newFolder(t)
	live, dead := f.image("live", "a", "b"), f.image("dead", "b", "c")
	f.tag(live[0], "live")
	if result := f.must(PruneSettings{Retention: time.Hour, Settings: Settings{Grace: time.Hour}}); len(result.Moved) != 0 || result.Plan.Young != 2 {
		t.Error("too young:", result.Moved, result.Plan.Young)
	}
	result := f.must(PruneSettings{Retention: time.Hour})
	if len(result.Moved) != 2 || len(result.Deleted) != 0 || f.there(dead[0]) || f.there(dead[2]) || !f.there(live...) {
		t.Error(result.Moved, result.Deleted)
	}
	// The folder's name alone does not make it old: the file was renamed just now.
	f.age(2 * time.Hour)
	if result := f.must(PruneSettings{Retention: time.Hour}); len(result.Deleted) != 0 || len(result.Plan.Moved) != 2 {
		t.Error(result.Deleted)
	}
	time.Sleep(20 * time.Millisecond)
	if result := f.must(PruneSettings{Retention: 10 * time.Millisecond}); len(result.Deleted) != 2 {
		t.Error(result.Deleted)
	}
	if _, err := os.Stat(filepath.Join(f.path, ownFolder)); !errors.Is(err, os.ErrNotExist) {
		t.Error(err)
	}
	if !f.there(live...) {
		t.Error("what lives is gone")
	}
}

// What is named meanwhile is put back, by restore and by the next prune, however old it is.
func TestPutBack(t *testing.T) {
	for name, again := range map[string]func(context.Context, string, PruneSettings) (*Result, error){"restore": Restore, "prune": Prune} {
		f := newFolder(t)
		live, dead, other := f.image("live", "a"), f.image("dead", "b"), f.image("other", "c")
		f.tag(live[0], "live")
		if result := f.must(PruneSettings{Retention: time.Hour}); len(result.Moved) != 4 {
			t.Fatal(name, result.Moved)
		}
		f.tag(dead[0], "named again")
		if err := func() error { _, err := Open(context.Background(), f.path, Options{}); return err }(); err != nil {
			t.Error(name, err)
		}
		time.Sleep(20 * time.Millisecond)
		result, err := again(context.Background(), f.path, PruneSettings{Retention: time.Millisecond})
		if err != nil || len(result.PutBack) != 2 || !f.there(dead...) || !f.there(live...) {
			t.Error(name, err, result.PutBack)
		}
		if f.there(other[0]) || name == "restore" && len(result.Deleted) != 0 || name == "prune" && len(result.Deleted) != 2 {
			t.Error(name, result.Deleted)
		}
	}
}

// A tag that comes while blobs are moved: they are put back in the same prune, whenever it comes.
func TestTagWhileMoving(t *testing.T) {
	for when := 0; when < 4; when++ {
		f := newFolder(t)
		live, dead := f.image("live", "a"), f.image("dead", "b", "c", "d")
		f.tag(live[0], "live")
		count := 0
		renameFile = func(in *tree, from, to place) error {
			if count == when {
				f.tag(dead[0], "pushed")
			}
			count++
			return in.rename(from, to)
		}
		result, err := f.prune(PruneSettings{})
		renameFile = (*tree).rename
		if err != nil || !f.there(dead...) || !f.there(live...) || len(result.Deleted) != 0 {
			t.Error(when, err, result.Deleted)
		}
	}
}

// A signature that no index lists comes while what it names is moved: index.json is as before, the names are not.
func TestSignatureWhileMoving(t *testing.T) {
	f := newFolder(t)
	live, dead := f.image("live", "a"), f.image("dead", "b")
	f.tag(live[0], "live")
	var signature digest.Digest
	renameFile = func(in *tree, from, to place) error {
		if signature == "" {
			signature = f.put(fmt.Sprintf(`{"schemaVersion":2,"layers":[{"digest":"%s"}],"subject":{"digest":"%s"}}`, dead[1], live[0]))
		}
		return in.rename(from, to)
	}
	_, err := f.prune(PruneSettings{})
	renameFile = (*tree).rename
	if err != nil || !f.there(signature, dead[1]) || !f.there(live...) || f.there(dead[0]) {
		t.Error(err)
	}
}

// An entry without a tag that comes while those before it are taken out counts.
func TestUntaggedWhileMoving(t *testing.T) {
	f := newFolder(t)
	live, old, dead := f.image("live", "a"), f.image("old", "b"), f.image("dead", "c")
	f.tag(live[0], "live")
	f.tag(old[0], "")
	count := 0
	renameFile = func(in *tree, from, to place) error {
		err := in.rename(from, to)
		if count++; count == 2 { // the first is index.json
			f.list = f.list[:1]
			f.tag(dead[0], "")
		}
		return err
	}
	result, err := f.prune(PruneSettings{Settings: Settings{Untagged: true}})
	renameFile = (*tree).rename
	if err != nil || !f.there(dead...) || !f.there(live...) || f.there(old[0]) || result.Listed != 1 {
		t.Error(err, result.Deleted)
	}
}

// An index.json that cannot be read any more: all is put back, and nothing is done.
func TestUnreadableWhileMoving(t *testing.T) {
	f := newFolder(t)
	live, dead := f.image("live", "a"), f.image("dead", "b")
	f.tag(live[0], "live")
	renameFile = func(in *tree, from, to place) error {
		f.write("index.json", "")
		return in.rename(from, to)
	}
	_, err := f.prune(PruneSettings{})
	renameFile = (*tree).rename
	if !errors.Is(err, ErrChanged) || errors.Is(err, ErrPartly) || !f.there(dead...) || !f.there(live...) {
		t.Error(err)
	}
}

// A file that cannot be moved or deleted is told, and the rest is done.
func TestFaultsAtRename(t *testing.T) {
	f := newFolder(t)
	f.tag(f.image("live", "a")[0], "live")
	dead := f.image("dead", "b", "c", "d")
	renameFile = func(in *tree, from, to place) error {
		if from.name == dead[2].Encoded() {
			return errors.New("no")
		}
		return in.rename(from, to)
	}
	removeFile = func(in *tree, at place) error {
		if at.name == dead[3].Encoded() {
			return errors.New("no")
		}
		return in.remove(at)
	}
	result, err := f.prune(PruneSettings{})
	renameFile, removeFile = (*tree).rename, (*tree).remove
	if !errors.Is(err, ErrPartly) || len(result.Failed) != 2 || len(result.Moved) != 3 || len(result.Deleted) != 2 || !f.there(dead[2]) {
		t.Error(err, result.Failed, result.Moved, result.Deleted)
	}
	if result := f.must(PruneSettings{}); len(result.Deleted) != 2 {
		t.Error(result.Deleted)
	}
	// Nothing done is another fault.
	dead = f.image("dead")
	renameFile = func(*tree, place, place) error { return errors.New("no") }
	_, err = f.prune(PruneSettings{})
	renameFile = (*tree).rename
	if err == nil || errors.Is(err, ErrPartly) || !f.there(dead[0]) {
		t.Error(err)
	}
}

func TestUntagged(t *testing.T) {
	f := newFolder(t)
	live, old := f.image("live", "a"), f.image("old", "a", "b")
	f.tag(old[0], "")
	if _, err := f.prune(PruneSettings{Settings: Settings{Untagged: true}}); err == nil || !f.there(old...) {
		t.Error("no entry has a tag:", err)
	}
	f.tag(live[0], "live")
	result := f.must(PruneSettings{})
	if len(result.Moved) != 0 || result.Plan.Untagged != 1 || result.Plan.UntaggedFreed == 0 {
		t.Error(result.Moved, result.Plan.Untagged)
	}
	freed := result.Plan.UntaggedFreed
	// An entry that comes between reading and writing is not lost, and nothing is taken out.
	l, err := Open(context.Background(), f.path, Options{})
	if err != nil {
		t.Fatal(err)
	}
	f.tag(old[0], "new")
	if _, err := l.kind.untag(l.tree, l.top); err == nil {
		t.Error("written over a change")
	}
	f.list = f.list[:2]
	f.save()
	result = f.must(PruneSettings{Settings: Settings{Untagged: true}})
	if result.Listed != 1 || len(result.Deleted) != 2 || f.there(old[0]) || !f.there(live...) || result.Plan.Freed != freed {
		t.Error(result.Listed, result.Deleted, result.Plan.Freed, freed)
	}
	text, _ := os.ReadFile(filepath.Join(f.path, "index.json"))
	var index struct{ Manifests []descriptor }
	if json.Unmarshal(text, &index) != nil || len(index.Manifests) != 1 || index.Manifests[0].Digest != live[0] {
		t.Errorf("%s", text)
	}
	if left, _ := filepath.Glob(filepath.Join(f.path, ".*")); len(left) != 0 {
		t.Error(left)
	}
}

// A prune that is told to stop looks again before it ends, and what it moved is put back by the next where it is named.
func TestCancelled(t *testing.T) {
	f := newFolder(t)
	live, dead := f.image("live", "a"), f.image("dead", "b", "c")
	f.tag(live[0], "live")
	ctx, cancel := context.WithCancel(context.Background())
	renameFile = func(in *tree, from, to place) error { cancel(); return in.rename(from, to) }
	result, err := Prune(ctx, f.path, PruneSettings{})
	renameFile = (*tree).rename
	if !errors.Is(err, ErrPartly) || len(result.Moved) != 1 || len(result.Deleted) != 0 || !f.there(live...) {
		t.Error(err, result.Moved)
	}
	if f.must(PruneSettings{}); f.there(dead[1]) || !f.there(live...) {
		t.Error("the rest is not done")
	}
	if _, err := Open(ctx, f.path, Options{}); !errors.Is(err, context.Canceled) {
		t.Error(err)
	}
}

// Slices find what one graph finds, on drawn stores and for every small limit that suffices.
func TestSlices(t *testing.T) {
	random := rand.New(rand.NewSource(1))
	tried := 0
	for round := 0; round < 300; round++ {
		n := 3 + random.Intn(20)
		l := &Store{Blobs: make([]Blob, n)}
		inner := 1 + random.Intn(n)
		for number := range l.Blobs {
			l.Blobs[number] = Blob{Digest: digest.Digest(fmt.Sprintf("sha256:%064d", number)), Size: int64(random.Intn(9))}
		}
		for k := random.Intn(3 * n); k > 0; k-- {
			one := Reference{From: random.Intn(inner), To: random.Intn(n), Subject: random.Intn(4) == 0}
			l.References = append(l.References, one)
		}
		l.References = distinct(l.References)
		var keep []int
		if random.Intn(2) == 0 {
			keep = append(keep, 1+random.Intn(n-1))
		}
		want, err := l.mark(context.Background(), l.References, keep, graphLimits)
		if err != nil {
			t.Fatal(err)
		}
		for objects := 2; objects <= n; objects++ {
			for _, references := range []int{1 << 20, len(l.References) / 2, len(l.References) - 1} {
				got, err := l.mark(context.Background(), l.References, keep, limits{objects, references})
				if errors.Is(err, ErrTooLarge) {
					continue
				}
				tried++
				if err != nil || !reflect.DeepEqual(got, want) {
					t.Fatalf("%d objects, %d references: %v, %v where %v", objects, references, err, got, want)
				}
			}
		}
	}
	if tried < 500 {
		t.Errorf("only %d sliced", tried)
	}
}

// Names in groups: a scan of a few names at once finds what one of all finds.
func TestGroups(t *testing.T) {
	f := newFolder(t)
	for k := 0; k < 5; k++ {
		f.tag(f.image(fmt.Sprint(k), "shared", fmt.Sprint("of ", k))[0], fmt.Sprint(k))
	}
	whole, err := Open(context.Background(), f.path, Options{})
	if err != nil {
		t.Fatal(err)
	}
	defer func(most int) { mostNames = most }(mostNames)
	for mostNames = 8; mostNames < 12; mostNames++ {
		parts, err := Open(context.Background(), f.path, Options{})
		if err != nil || !reflect.DeepEqual(parts.References, whole.References) {
			t.Error(mostNames, err)
		}
	}
	mostNames = 5
	if _, err := Open(context.Background(), f.path, Options{}); !errors.Is(err, ErrTooLarge) {
		t.Error(err)
	}
}

// A text that is too large to be parsed is scanned piece by piece: what it names is found wherever it stands.
func TestPieces(t *testing.T) {
	defer func(text int64, batch int) { mostText, batchBytes = text, batch }(mostText, batchBytes)
	mostText, batchBytes = 4000, 512
	for shift := 0; shift < 300; shift += 7 {
		f := newFolder(t)
		layer := f.put("layer")
		name := f.put(`{"x":"` + strings.Repeat("x", 4200+shift) + `","layers":[{"digest":"` + string(layer) + `"}],"y":"` + strings.Repeat("y", 300) + `"}`)
		f.tag(name, "large")
		l, err := Open(context.Background(), f.path, Options{})
		if err != nil {
			t.Fatal(err)
		}
		if plan, err := l.Plan(context.Background(), Settings{}); err != nil || len(plan.Dead) != 0 {
			t.Error(shift, err, plan.Dead)
		}
		f.write("blobs/sha256/"+name.Encoded(), `{"x":"`+strings.Repeat("z", 5000))
		if l, err = Open(context.Background(), f.path, Options{}); err != nil {
			t.Fatal(err)
		}
		if _, err := l.Plan(context.Background(), Settings{}); !errors.Is(err, errContent) {
			t.Error(shift, err)
		}
	}
}

// Data within data, deeper than anyone writes: what the innermost names is held.
func TestDeepData(t *testing.T) {
	f := newFolder(t)
	inner := fmt.Sprintf(`{"schemaVersion":2,"layers":[{"digest":"%s"}]}`, f.put("layer"))
	for deep := 0; deep < 14; deep++ {
		text, _ := json.Marshal(map[string]any{"schemaVersion": 2, "manifests": []map[string]any{{"digest": digest.FromString(inner), "data": []byte(inner)}}})
		inner = string(text)
	}
	f.tag(f.put(inner), "deep")
	l, err := Open(context.Background(), f.path, Options{})
	if err != nil {
		t.Fatal(err)
	}
	if plan, err := l.Plan(context.Background(), Settings{}); err != nil || len(plan.Dead) != 0 || len(plan.Missing) != 0 {
		t.Error(err, plan.Dead, plan.Missing)
	}
}

func TestWhy(t *testing.T) {
	f := newFolder(t)
	live, dead := f.image("live", "a"), f.image("dead", "b")
	f.tag(live[0], "live")
	l, err := Open(context.Background(), f.path, Options{})
	if err != nil {
		t.Fatal(err)
	}
	chain, err := l.Why(context.Background(), live[1], Settings{})
	if err != nil || fmt.Sprint(chain) != fmt.Sprint([]digest.Digest{"", live[0], live[1]}) {
		t.Error(chain, err)
	}
	if chain, err = l.Why(context.Background(), dead[1], Settings{}); err != nil || len(chain) != 0 {
		t.Error(chain, err)
	}
	if chain, err = l.Why(context.Background(), dead[1], Settings{Keep: dead[:1]}); err != nil || len(chain) != 2 {
		t.Error(chain, err)
	}
	if _, err = l.Why(context.Background(), digest.FromString("nowhere"), Settings{}); err == nil {
		t.Error("a blob that is not there")
	}
}
