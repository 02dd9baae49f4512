package oci_test

import (
	"context"
	"encoding/json"
	"errors"
	"fmt"
	"os"
	"path/filepath"
	"sort"
	"strings"
	"testing"
	"time"

	digest "github.com/opencontainers/go-digest"
	"github.com/opencontainers/image-spec/specs-go"
	v1 "github.com/opencontainers/image-spec/specs-go/v1"
	"kullneyra.example/go/kullneyra"
	"kullneyra.example/go/oci"
)

// store is a layout that a test writes.
type store struct {
	t    *testing.T
	path string
	top  v1.Index
}

func newStore(t *testing.T) *store {
	s := &store{t: t, path: t.TempDir()}
	s.write(v1.ImageLayoutFile, []byte(`{"imageLayoutVersion":"1.0.0"}`))
	s.top.Versioned = specs.Versioned{SchemaVersion: 2}
	s.save()
	return s
}

func (s *store) write(name string, text []byte) {
	path := filepath.Join(s.path, name)
	if err := os.MkdirAll(filepath.Dir(path), 0o755); err != nil {
		s.t.Fatal(err)
	}
	if err := os.WriteFile(path, text, 0o644); err != nil {
		s.t.Fatal(err)
	}
}

func (s *store) save() { s.write("index.json", text(s.top)) }

func text(value any) []byte {
	out, err := json.Marshal(value)
	if err != nil {
		panic(err)
	}
	return out
}

func pathOf(name digest.Digest) string {
	return filepath.Join("blobs", name.Algorithm().String(), name.Encoded())
}

// put writes a blob and answers its descriptor.
func (s *store) put(mediaType string, content []byte) v1.Descriptor {
	name := digest.FromBytes(content)
	s.write(pathOf(name), content)
	return v1.Descriptor{MediaType: mediaType, Digest: name, Size: int64(len(content))}
}

func (s *store) layer(content string) v1.Descriptor {
	return s.put(v1.MediaTypeImageLayerGzip, []byte("\x1f\x8b"+content))
}

// image writes a manifest with its configuration and these layers.
func (s *store) image(name string, subject *v1.Descriptor, layers ...v1.Descriptor) v1.Descriptor {
	config := s.put(v1.MediaTypeImageConfig, []byte(`{"architecture":"amd64","os":"linux","name":"`+name+`"}`))
	return s.put(v1.MediaTypeImageManifest, text(v1.Manifest{
		Versioned: specs.Versioned{SchemaVersion: 2}, MediaType: v1.MediaTypeImageManifest,
		Config: config, Layers: layers, Subject: subject,
	}))
}

func (s *store) list(one ...v1.Descriptor) {
	s.top.Manifests = append(s.top.Manifests, one...)
	s.save()
}

func (s *store) open() *oci.Store {
	s.t.Helper()
	l, err := oci.Open(context.Background(), s.path, oci.Options{Verify: true})
	if err != nil {
		s.t.Fatal(err)
	}
	return l
}

func (s *store) plan(settings oci.Settings) *oci.Plan {
	s.t.Helper()
	plan, err := s.open().Plan(context.Background(), settings)
	if err != nil {
		s.t.Fatal(err)
	}
	return plan
}

// fails opens and plans, and answers the fault.
func (s *store) fails(settings oci.Settings) error {
	l, err := oci.Open(context.Background(), s.path, oci.Options{})
	if err != nil {
		return err
	}
	_, err = l.Plan(context.Background(), settings)
	return err
}

// prune with a retention and no grace.
func (s *store) prune(retention time.Duration) (*oci.Result, error) {
	return oci.Prune(context.Background(), s.path, oci.PruneSettings{Retention: retention})
}

func (s *store) there(one v1.Descriptor) bool {
	_, err := os.Lstat(filepath.Join(s.path, pathOf(one.Digest)))
	return err == nil
}

// dead is what a plan lists, as a set.
func (s *store) dead(keep ...digest.Digest) []digest.Digest {
	s.t.Helper()
	plan := s.plan(oci.Settings{Keep: keep})
	var out []digest.Digest
	var freed int64
	for _, blob := range plan.Dead {
		out = append(out, blob.Digest)
		freed += blob.Size
	}
	if uint64(freed) != plan.Freed {
		s.t.Errorf("freed %d, where the dead have %d bytes", plan.Freed, freed)
	}
	return out
}

func (s *store) expect(got []digest.Digest, want ...v1.Descriptor) {
	s.t.Helper()
	var names []digest.Digest
	for _, one := range want {
		names = append(names, one.Digest)
	}
	sort.Slice(names, func(a, b int) bool { return names[a] < names[b] })
	if fmt.Sprint(got) != fmt.Sprint(names) {
		s.t.Errorf("\n got %v\nwant %v", got, names)
	}
}

func TestHeldByOthers(t *testing.T) {
	s := newStore(t)
	shared, old := s.layer("shared"), s.layer("old")
	kept := s.image("kept", nil, shared)
	gone := s.image("gone", nil, shared, old)
	config := s.put(v1.MediaTypeImageConfig, []byte(`{"architecture":"amd64","os":"linux","name":"gone"}`))
	s.list(kept)
	s.expect(s.dead(), gone, config, old)
	s.expect(s.dead(gone.Digest))
}

func TestIndexInIndex(t *testing.T) {
	s := newStore(t)
	amd, arm := s.image("amd64", nil, s.layer("amd64")), s.image("arm64", nil, s.layer("arm64"))
	inner := s.put(v1.MediaTypeImageIndex, text(v1.Index{Versioned: specs.Versioned{SchemaVersion: 2}, Manifests: []v1.Descriptor{amd, arm}}))
	s.list(s.put(v1.MediaTypeImageIndex, text(v1.Index{Versioned: specs.Versioned{SchemaVersion: 2}, Manifests: []v1.Descriptor{inner}})))
	s.expect(s.dead())
}

func TestDockerTypes(t *testing.T) {
	s := newStore(t)
	const prefix = "application/vnd.docker."
	config, layer := s.put(prefix+"container.image.v1+json", []byte(`{"os":"linux"}`)), s.put(prefix+"image.rootfs.diff.tar.gzip", []byte("l"))
	manifest := s.put(prefix+"distribution.manifest.v2+json", text(v1.Manifest{
		Versioned: specs.Versioned{SchemaVersion: 2}, MediaType: prefix + "distribution.manifest.v2+json", Config: config, Layers: []v1.Descriptor{layer},
	}))
	s.list(s.put(prefix+"distribution.manifest.list.v2+json", text(v1.Index{
		Versioned: specs.Versioned{SchemaVersion: 2}, MediaType: prefix + "distribution.manifest.list.v2+json", Manifests: []v1.Descriptor{manifest},
	})))
	first := s.put(prefix+"image.rootfs.diff.tar.gzip", []byte("first"))
	s.list(s.put(prefix+"distribution.manifest.v1+prettyjws", []byte(`{"schemaVersion":1,"fsLayers":[{"blobSum":"`+string(first.Digest)+`"}]}`)))
	s.expect(s.dead())
}

// A signature that the index does not list lives with its image, and so does what is attached to the signature.
func TestSubject(t *testing.T) {
	s := newStore(t)
	image := s.image("image", nil, s.layer("image"))
	signature := s.image("signature", &image, s.layer("signature"))
	s.image("attached", &signature, s.layer("attached"))
	material := s.put("application/spdx+json", []byte(`{"spdxVersion":"SPDX-2.3"}`))
	const artifact = "application/vnd.oci.artifact.manifest.v1+json"
	s.put(artifact, text(map[string]any{"mediaType": artifact, "artifactType": "application/spdx+json", "blobs": []v1.Descriptor{material}, "subject": image}))
	s.list(image)
	s.expect(s.dead())
	s.top.Manifests = nil
	s.save()
	if dead := s.dead(); len(dead) != 11 {
		t.Errorf("%d blobs are dead without the image: %v", len(dead), dead)
	}
}

func TestEmbedded(t *testing.T) {
	s := newStore(t)
	layer := s.layer("inside")
	config := s.put(v1.MediaTypeImageConfig, []byte(`{"os":"linux"}`))
	inner := text(v1.Manifest{Versioned: specs.Versioned{SchemaVersion: 2}, MediaType: v1.MediaTypeImageManifest, Config: config, Layers: []v1.Descriptor{layer}})
	one := v1.Descriptor{MediaType: v1.MediaTypeImageManifest, Digest: digest.FromBytes(inner), Size: int64(len(inner)), Data: inner}
	s.list(one)
	s.expect(s.dead())
	if missing := s.plan(oci.Settings{}).Missing; len(missing) != 0 {
		t.Errorf("missing %v", missing)
	}
	// A signature of what exists only in the data is held while the descriptor's holder lives.
	signature := s.image("signature", &one, s.layer("signature"))
	s.expect(s.dead())
	inner = text(v1.Index{Versioned: specs.Versioned{SchemaVersion: 2}, Manifests: []v1.Descriptor{one}})
	s.top.Manifests = nil
	s.list(s.put(v1.MediaTypeImageIndex, inner))
	s.expect(s.dead())
	s.top.Manifests = nil
	s.save()
	if dead := s.dead(); len(dead) != 6 {
		t.Errorf("%d dead without the holder, %s among them?", len(dead), signature.Digest)
	}
	s.list(one)
	s.top.Manifests[0].Data = []byte("{}")
	s.save()
	if err := s.fails(oci.Settings{}); err == nil || !strings.Contains(err.Error(), string(one.Digest)) {
		t.Error("data of another digest:", err)
	}
}

// A type that is not known is a leaf, unless the blob is a manifest or an index.
func TestUnknownTypes(t *testing.T) {
	s := newStore(t)
	layer := s.layer("unknown")
	config := s.put(v1.MediaTypeImageConfig, []byte(`{"os":"linux"}`))
	odd := s.put("application/vnd.example.odd+json", text(v1.Manifest{Versioned: specs.Versioned{SchemaVersion: 2}, Config: config, Layers: []v1.Descriptor{layer}}))
	plain := s.put("application/vnd.example.plain+json", []byte(`{"some":"thing"}`))
	broken := s.put("application/vnd.example.broken+json", []byte(`{"manifests":`))
	s.list(odd, plain, broken)
	s.expect(s.dead())
}

// One blob, called a layer first and a manifest later: what it refers to is held.
func TestTwoTypes(t *testing.T) {
	s := newStore(t)
	image := s.image("image", nil, s.layer("image"))
	as := image
	as.MediaType = v1.MediaTypeImageLayer
	first := s.image("first", nil, as)
	second := s.put(v1.MediaTypeImageIndex, text(v1.Index{Versioned: specs.Versioned{SchemaVersion: 2}, Manifests: []v1.Descriptor{image}}))
	s.list(first, second)
	s.expect(s.dead())
}

func TestMissing(t *testing.T) {
	s := newStore(t)
	foreign := v1.Descriptor{MediaType: v1.MediaTypeImageLayerNonDistributable, Digest: digest.FromString("foreign"), Size: 7, URLs: []string{"https://example.com/layer"}}
	other := v1.Descriptor{MediaType: v1.MediaTypeImageManifest, Digest: digest.FromString("other platform"), Size: 14}
	inner := s.put(v1.MediaTypeImageIndex, text(v1.Index{Versioned: specs.Versioned{SchemaVersion: 2}, Manifests: []v1.Descriptor{other}}))
	s.list(s.image("image", nil, foreign), inner)
	s.expect(s.dead())
	missing := s.plan(oci.Settings{}).Missing
	if len(missing) != 2 {
		t.Fatalf("missing %v", missing)
	}
	for _, one := range missing {
		if one.Foreign != (one.Digest == foreign.Digest) || (one.By == inner.Digest) != (one.Digest == other.Digest) {
			t.Errorf("missing %v", one)
		}
	}
	// What index.json itself lists must be there.
	s.list(other)
	if err := s.fails(oci.Settings{}); err == nil || !strings.Contains(err.Error(), string(other.Digest)) {
		t.Error(err)
	}
	s.plan(oci.Settings{AllowMissing: true})
	if err := os.Mkdir(filepath.Join(s.path, pathOf(other.Digest)), 0o755); err != nil {
		t.Fatal(err)
	}
	if err := s.fails(oci.Settings{}); err == nil || !strings.Contains(err.Error(), string(other.Digest)) {
		t.Error("a folder:", err)
	}
}

func TestStray(t *testing.T) {
	s := newStore(t)
	s.list(s.image("image", nil, s.layer("image")))
	stray := []string{"blobs/sha256/readme.txt", "blobs/sha256/" + strings.Repeat("a", 63), "blobs/sha256/.partial", "blobs/file"}
	for _, name := range append(stray, "blobs/md5/d41d8cd98f00b204e9800998ecf8427e") {
		s.write(name, []byte("stray"))
	}
	if err := os.Symlink("nowhere", filepath.Join(s.path, "blobs/sha256", strings.Repeat("b", 64))); err != nil {
		t.Fatal(err)
	}
	for _, name := range []string{"notes", "20260102T030405.000000000Z/notes", "20260102T030405.000000000Z/blobs/notes"} {
		s.write(".kullneyra-oci/dead/"+name, []byte("stray"))
		stray = append(stray, ".kullneyra-oci/dead/"+name)
	}
	if l := s.open(); len(l.Stray) != 8 {
		t.Errorf("stray: %v", l.Stray)
	}
	if _, err := s.prune(0); err != nil {
		t.Fatal(err)
	}
	for _, name := range append(stray, "blobs/md5/d41d8cd98f00b204e9800998ecf8427e") {
		if _, err := os.Stat(filepath.Join(s.path, name)); err != nil {
			t.Error(err)
		}
	}
}

// Each of these is a fault that names its blob.
func TestFaults(t *testing.T) {
	cases := map[string]func(*store) string{
		"no layout": func(s *store) string {
			os.Remove(filepath.Join(s.path, v1.ImageLayoutFile))
			return "no OCI image layout"
		},
		"another version": func(s *store) string {
			s.write(v1.ImageLayoutFile, []byte(`{"imageLayoutVersion":"2.0.0"}`))
			return "2.0.0"
		},
		"no index":           func(s *store) string { os.Remove(filepath.Join(s.path, "index.json")); return "index.json" },
		"damaged index":      func(s *store) string { s.write("index.json", []byte(`{"manifests": [`)); return "index.json" },
		"empty index":        func(s *store) string { s.write("index.json", nil); return "index.json" },
		"index that is none": func(s *store) string { s.write("index.json", []byte(`[]`)); return "index.json" },
		"two lists": func(s *store) string {
			s.write("index.json", []byte(`{"manifests":[],"manifests":[]}`))
			return "index.json"
		},
		"a list of something else": func(s *store) string { s.write("index.json", []byte(`{"layers":[]}`)); return "no image index" },
		"a digest that is none": func(s *store) string {
			s.write("index.json", []byte(`{"schemaVersion":2,"manifests":[{"digest":"sha256:../../x"}]}`))
			return "../../x"
		},
		"one digit of a live manifest": func(s *store) string {
			one := s.top.Manifests[0]
			content, _ := os.ReadFile(filepath.Join(s.path, pathOf(one.Digest)))
			s.write(pathOf(one.Digest), []byte(strings.Replace(string(content), "1", "2", 1)))
			return string(one.Digest)
		},
		"another manifest in its place": func(s *store) string {
			one, other := s.top.Manifests[0], s.image("other", nil, s.layer("other"))
			content, _ := os.ReadFile(filepath.Join(s.path, pathOf(other.Digest)))
			s.write(pathOf(one.Digest), content)
			return string(one.Digest)
		},
		"a live manifest that is empty": func(s *store) string {
			s.write(pathOf(s.top.Manifests[0].Digest), nil)
			return string(s.top.Manifests[0].Digest)
		},
		"a live manifest that begins otherwise": func(s *store) string {
			s.write(pathOf(s.top.Manifests[0].Digest), []byte("x"))
			return string(s.top.Manifests[0].Digest)
		},
		"a live manifest under the name of a layer, damaged": func(s *store) string {
			s.top.Manifests[0].MediaType = v1.MediaTypeImageLayer
			s.save()
			s.write(pathOf(s.top.Manifests[0].Digest), []byte("{}"))
			return string(s.top.Manifests[0].Digest)
		},
	}
	for name, damage := range cases {
		t.Run(name, func(t *testing.T) {
			s := newStore(t)
			s.list(s.image("image", nil, s.layer("image")))
			dead := s.layer("dead")
			want := damage(s)
			err := s.fails(oci.Settings{})
			var fault *oci.Fault
			if !errors.As(err, &fault) || !strings.Contains(err.Error(), want) {
				t.Errorf("%v, where %q is at fault", err, want)
			}
			if _, err := s.prune(0); err == nil || errors.Is(err, oci.ErrPartly) || !s.there(dead) {
				t.Error(err)
			}
		})
	}
}

// A layer that lives and has another content is found where every blob is hashed.
func TestVerify(t *testing.T) {
	s := newStore(t)
	layer := s.layer("image")
	s.list(s.image("image", nil, layer))
	s.write(pathOf(layer.Digest), []byte("damaged"))
	if err := s.fails(oci.Settings{}); err != nil {
		t.Error(err)
	}
	if _, err := s.open().Plan(context.Background(), oci.Settings{}); err == nil || !strings.Contains(err.Error(), string(layer.Digest)) {
		t.Error(err)
	}
}

// What is damaged and not live is told and held, and blocks nothing else.
func TestDamagedAndDead(t *testing.T) {
	damages := map[string]func(*store, v1.Descriptor) v1.Descriptor{
		"cut off": func(s *store, image v1.Descriptor) v1.Descriptor {
			one := s.image("signature", &image)
			content, _ := os.ReadFile(filepath.Join(s.path, pathOf(one.Digest)))
			s.write(pathOf(one.Digest), content[:len(content)/2])
			return one
		},
		"cut off, and named so": func(s *store, image v1.Descriptor) v1.Descriptor {
			return s.put("", []byte(`{"schemaVersion":2,"subject":{"digest":"`+string(image.Digest)+`","si`))
		},
		"empty": func(s *store, image v1.Descriptor) v1.Descriptor {
			one := s.image("signature", &image)
			s.write(pathOf(one.Digest), nil)
			return one
		},
		"a wrong field": func(s *store, image v1.Descriptor) v1.Descriptor {
			return s.put("", []byte(`{"schemaVersion":2,"layers":"none","subject":{"digest":"`+string(image.Digest)+`"}}`))
		},
		"a wrong subject": func(s *store, image v1.Descriptor) v1.Descriptor {
			return s.put("", []byte(`{"schemaVersion":2,"layers":[],"subject":"`+string(image.Digest)+`"}`))
		},
		"an unknown algorithm": func(s *store, image v1.Descriptor) v1.Descriptor {
			return s.put("", []byte(`{"schemaVersion":2,"layers":[],"subject":{"digest":"blake3:`+strings.Repeat("0", 64)+`"}}`))
		},
	}
	for name, damage := range damages {
		t.Run(name, func(t *testing.T) {
			s := newStore(t)
			image := s.image("image", nil, s.layer("image"))
			s.list(image)
			dead := s.layer("dead")
			one := damage(s, image)
			plan := s.plan(oci.Settings{})
			if len(plan.Damaged) != 1 || plan.Damaged[0].Digest != one.Digest {
				t.Errorf("told: %v", plan.Damaged)
			}
			for _, blob := range plan.Dead {
				if blob.Digest == one.Digest {
					t.Error("is not held")
				}
			}
			if _, err := s.prune(0); err != nil || s.there(dead) || !s.there(one) {
				t.Error(err)
			}
			gone := false
			for _, blob := range s.plan(oci.Settings{DropDamaged: true}).Dead {
				gone = gone || blob.Digest == one.Digest
			}
			if !gone {
				t.Error("is held where it is to be dropped")
			}
		})
	}
}

// Bytes that begin as a text does, are what their name says, and were never one, are a leaf as any other.
func TestBytesThatBeginAsText(t *testing.T) {
	s := newStore(t)
	s.list(s.image("image", nil))
	dead := s.put("", []byte("{\x00\xff\x01 and so on"))
	s.expect(s.dead(), dead)
	lines := s.put("", []byte("{\"a\":1}\n{\"b\":2}\n"))
	plan := s.plan(oci.Settings{})
	if len(plan.Dead) != 1 || len(plan.Damaged) != 1 || plan.Damaged[0].Digest != lines.Digest {
		t.Error(plan.Dead, plan.Damaged)
	}
}

// A statement about software has a list of subjects, and a configuration a field of a manifest's name: both are leaves.
func TestLeaves(t *testing.T) {
	s := newStore(t)
	image := s.image("image", nil, s.layer("image"))
	s.put("", []byte(`{"_type":"https://in-toto.io/Statement/v1","subject":[{"name":"x","digest":{"sha256":"`+image.Digest.Encoded()+`"}}]}`))
	s.put("", []byte(`{"architecture":"amd64","config":{"Cmd":["sh"],"Labels":{"of":"`+string(image.Digest)+`"}}}`))
	s.list(s.image("other", nil))
	if dead := s.dead(); len(dead) != 5 {
		t.Errorf("%d dead: %v", len(dead), dead)
	}
}

// What a blob is, is told by its content: whatever calls it whatever, in whatever order, what it refers to is held.
func TestCalledOtherwise(t *testing.T) {
	for _, mediaType := range []string{v1.MediaTypeImageLayerGzip, v1.MediaTypeImageConfig, "application/octet-stream", ""} {
		s := newStore(t)
		inside := s.image("inside", nil, s.layer("inside"))
		inside.MediaType = mediaType
		s.list(inside)
		s.expect(s.dead())
		s.top.Manifests = nil
		s.list(s.image("outside", nil, inside))
		s.expect(s.dead())
		// A signature that a dead manifest calls its layer.
		signature := s.image("signature", &s.top.Manifests[0], s.layer("signature"))
		signature.MediaType = mediaType
		dead := s.image("dead", nil, signature)
		config := s.put(v1.MediaTypeImageConfig, []byte(`{"architecture":"amd64","os":"linux","name":"dead"}`))
		s.expect(s.dead(), dead, config)
		s.top.Manifests = nil
		s.save()
		if dead := s.dead(inside.Digest); len(dead) != 7 {
			t.Errorf("%d dead where one is kept: %v", len(dead), dead)
		}
	}
}

// Names written with escapes, a field in another case, white space before the text, and a text above 4 MiB.
func TestSpelling(t *testing.T) {
	s := newStore(t)
	one, two, three := s.layer("one"), s.layer("two"), s.layer("three")
	hex := one.Digest.Encoded()
	s.list(
		s.put("", []byte(`{"schemaVersion":2,"layers":[{"digest":"sha256:`+hex[:9]+`\u00`+fmt.Sprintf("%x", hex[9])+hex[10:]+`"}]}`)),
		s.put("", []byte("\n\t {\"LAYERS\":[{\"Digest\":\""+string(two.Digest)+"\"}]}")),
		s.put("", []byte(`{"annotations":{"x":"`+strings.Repeat("x", 5<<20)+`"},"layers":[{"digest":"`+string(three.Digest)+`"}]}`)),
	)
	s.expect(s.dead())
}

// A manifest that is a link is read through it, and neither it nor what it leads to goes.
func TestLinks(t *testing.T) {
	s := newStore(t)
	image, dead := s.image("image", nil, s.layer("image")), s.image("dead", nil, s.layer("dead"))
	nested := s.put(v1.MediaTypeImageIndex, text(v1.Index{Versioned: specs.Versioned{SchemaVersion: 2}, Manifests: []v1.Descriptor{s.image("nested", nil, s.layer("nested"))}}))
	s.list(image, s.put(v1.MediaTypeImageIndex, text(v1.Index{Versioned: specs.Versioned{SchemaVersion: 2}, Manifests: []v1.Descriptor{nested}})))
	for _, one := range []v1.Descriptor{image, dead, nested} {
		place := filepath.Join(s.path, pathOf(one.Digest))
		if err := os.Rename(place, filepath.Join(s.path, one.Digest.Encoded())); err != nil {
			t.Fatal(err)
		}
		if err := os.Symlink("../../"+one.Digest.Encoded(), place); err != nil {
			t.Fatal(err)
		}
	}
	s.expect(s.dead())
	loose := s.layer("loose")
	if _, err := s.prune(0); err != nil || s.there(loose) || !s.there(image) || !s.there(dead) || !s.there(nested) {
		t.Error(err)
	}
	// One content under two names, one of which leads to the other.
	content := []byte("\x1f\x8btwice")
	other := s.put(v1.MediaTypeImageLayerGzip, content)
	long := v1.Descriptor{MediaType: v1.MediaTypeImageLayerGzip, Digest: digest.SHA512.FromBytes(content), Size: other.Size}
	if err := os.MkdirAll(filepath.Join(s.path, "blobs/sha512"), 0o755); err != nil {
		t.Fatal(err)
	}
	if err := os.Symlink("../sha256/"+other.Digest.Encoded(), filepath.Join(s.path, pathOf(long.Digest))); err != nil {
		t.Fatal(err)
	}
	s.list(s.image("by the long name", nil, long))
	s.expect(s.dead())
}

// Where blobs/ or a folder in it is a link, a plan is made and nothing is moved.
func TestShared(t *testing.T) {
	for _, folder := range []string{"blobs", "blobs/sha256"} {
		s := newStore(t)
		s.list(s.image("image", nil, s.layer("image")))
		dead := s.layer("dead")
		place, other := filepath.Join(s.path, folder), filepath.Join(t.TempDir(), "other")
		if err := os.Rename(place, other); err != nil {
			t.Fatal(err)
		}
		if err := os.Symlink(other, place); err != nil {
			t.Fatal(err)
		}
		s.expect(s.dead(), dead)
		if _, err := s.prune(0); !errors.Is(err, oci.ErrShared) || !strings.Contains(err.Error(), folder) || !s.there(dead) {
			t.Error(err)
		}
	}
}

func TestLock(t *testing.T) {
	s := newStore(t)
	unlock, err := oci.Lock(s.path)
	if err != nil {
		t.Fatal(err)
	}
	if _, err := oci.Lock(s.path); !errors.Is(err, oci.ErrLocked) {
		t.Error(err)
	}
	unlock()
	again, err := oci.Lock(s.path)
	if err != nil {
		t.Fatal(err)
	}
	again()
	// Prune takes the lock itself, and plan does not ask for it.
	if again, err = oci.Lock(s.path); err != nil {
		t.Fatal(err)
	}
	if _, err := s.prune(0); !errors.Is(err, oci.ErrLocked) {
		t.Error(err)
	}
	s.plan(oci.Settings{})
	again()
	if _, err := s.prune(0); err != nil {
		t.Error(err)
	}
}

func TestLimits(t *testing.T) {
	s := newStore(t)
	layer := s.layer("one")
	s.list(s.image("image", nil, layer))
	l := s.open()
	keeping := func(names ...digest.Digest) error {
		_, err := l.Plan(context.Background(), oci.Settings{Keep: names})
		return err
	}
	if keeping(digest.FromString("nowhere")) == nil {
		t.Error("a digest to be kept that is not there")
	}
	many := make([]digest.Digest, kullneyra.MostLeases+1)
	for k := range many {
		many[k] = layer.Digest
	}
	if err := keeping(many[1:]...); err != nil {
		t.Error(err)
	}
	if err := keeping(many...); !errors.Is(err, kullneyra.NoStarts) {
		t.Error(err)
	}
	read, err := l.Read(nil)
	if err != nil {
		t.Fatal(err)
	}
	if _, err := read.DeadBy(oci.RoundRobin(1, 1)); !errors.Is(err, oci.ErrUnfinished) {
		t.Error("a schedule that does not finish:", err)
	}
	if dead, err := read.Dead(); err != nil || len(dead) != 0 {
		t.Error(dead, err)
	}
	for workers := uint32(1); workers <= kullneyra.MostWorkers; workers++ {
		order, err := read.Enough(workers)
		if err != nil {
			t.Fatal(err)
		}
		if dead, err := read.DeadBy(order); err != nil || len(dead) != 0 {
			t.Error(workers, dead, err)
		}
	}
	for workers := uint32(1); workers <= kullneyra.CardWorkers; workers++ {
		order, err := read.SeedOrder(kullneyra.Seed{First: 5}, workers)
		if err != nil {
			t.Fatal(err)
		}
		if dead, err := read.DeadBy(order); err != nil || len(dead) != 0 {
			t.Error(workers, dead, err)
		}
	}
}

// R counts what leaves reachable objects: a dead manifest's references are not in the bound, unless it is kept.
func TestRounds(t *testing.T) {
	s := newStore(t)
	shared := s.layer("shared")
	gone := s.image("gone", nil, shared, s.layer("old"))
	s.list(s.image("kept", nil, shared))
	for keep, reached := range map[digest.Digest]int{"": 3, gone.Digest: 6} {
		var kept []digest.Digest
		if keep != "" {
			kept = append(kept, keep)
		}
		read, err := s.open().Read(kept)
		if err != nil {
			t.Fatal(err)
		}
		if rounds, err := read.Rounds(2); err != nil || rounds != 7*reached+10 {
			t.Errorf("%d rounds with %d references reached, %v", rounds, reached, err)
		}
	}
}

func TestLarge(t *testing.T) {
	s := newStore(t)
	var live, dead int
	for k := 0; k < 2000; k++ {
		layers := []v1.Descriptor{s.layer(fmt.Sprint("a", k)), s.layer(fmt.Sprint("b", k)), s.layer(fmt.Sprint("shared", k%10))}
		image := s.image(fmt.Sprint(k), nil, layers...)
		if k%4 == 0 {
			s.top.Manifests = append(s.top.Manifests, image)
			live++
		} else {
			dead++
		}
	}
	s.save()
	l := s.open()
	if len(l.Blobs) < 8000 {
		t.Fatalf("%d blobs", len(l.Blobs))
	}
	plan, err := l.Plan(context.Background(), oci.Settings{})
	if err != nil {
		t.Fatal(err)
	}
	// Manifest, configuration and two layers of each; the ten shared layers by the even ones.
	if want := 4*dead + 5; len(plan.Dead) != want {
		t.Errorf("%d dead, where %d are", len(plan.Dead), want)
	}
}
