package oci

import (
	"encoding/json"
	"fmt"
	"sort"
	"strings"
	"testing"

	digest "github.com/opencontainers/go-digest"
)

// Texts that show each way of being read.
var seeds = func() []string {
	name := string(digest.FromString("x"))
	one := `{"mediaType":"application/vnd.oci.image.manifest.v1+json","digest":"` + name + `","size":7}`
	return []string{
		``, `{`, `{}`, ` {"layers":[]}`, `{"manifests":null}`, `{"layers":[` + one + `]}`, `{"layers":[{"digest":"sha256:\u0061"}]}`,
		`{"config":{"digest":"` + name + `","data":"e30="}}`, `{"subject":{"digest":"` + name + `","size":"x"}}`, `{"data":"eyJkYXRhIjoiZTMwPSJ9","layers":[[]]}`,
		`{"fsLayers":[{"blobSum":"` + name + `"}]}`, `{"layers":[{"digest":"sha256:2\u0064711642b726b04401627ca9fbac32f5c8530fb1903cc4db02258717921a4881"}]}`,
		`{"schemaVersion":2,"mediaType":"application/vnd.oci.image.index.v1+json","manifests":[` + one + `,` + one + `],"annotations":{"a":"b"}}`,
		`{"schemaVersion":2,"config":` + one + `,"layers":[` + one + `],"subject":` + one + `}`, `{"architecture":"amd64","config":{"Cmd":["sh"]},"rootfs":{"diff_ids":[]}}`,
		`{"config":{"Cmd":1},"layers":[]}`, `{"blobs":[` + one + `],"size":-0,"x":[true,false,null,1.5,1e9,{"y":[]}]}`, `{"Layers":[],"layers":[` + one + `]}`,
		`{"layers":[{"digest":"` + name + `","urls":["a","b"],"annotations":{"k":"v"},"platform":{"os":"linux"}}]}`, `{"manifests":[{"digest":"` + name + `","Data":"e30="}]}`,
		`{"manifests":[{"digest":"` + name + `","annotations":{"org.opencontainers.image.ref.name":"t"}},` + one + `],"x":{"manifests":[]}}`,
		`{"manifests":[` + one + `],"manifests":[]}`, `{"layers":[]} x`, `{"size":00,"layers":[]}`, `{"subject":[{"digest":{"sha256":"x"}}]}`, `{"schemaVersion":2.0}`,
	}
}()

// Whatever a text is, reading it ends without a panic; every valid digest of a descriptor and of a subject is found by the scan,
// in the text or beside it.
func FuzzParse(f *testing.F) {
	for _, text := range seeds {
		f.Add([]byte(text))
	}
	f.Fuzz(func(t *testing.T, text []byte) {
		c := parse(text)
		if c == nil {
			return
		}
		seen := string(text) + "\n" + string(c.more)
		for _, one := range c.refers {
			if one.Digest.Validate() == nil && !strings.Contains(seen, one.Digest.Encoded()) {
				t.Errorf("%s is not seen in %q", one.Digest, text)
			}
		}
		for _, one := range c.subjects {
			if one.Validate() == nil && !strings.Contains(seen, one.Encoded()) {
				t.Errorf("%s is not seen in %q", one, text)
			}
		}
	})
}

// said is what a text says, without the order of its descriptors.
func said(c *content) string {
	if c == nil {
		return "a leaf"
	}
	var refers []string
	for _, one := range c.refers {
		refers = append(refers, fmt.Sprintf("%s %s %d %q %v", one.Digest, one.MediaType, one.Size, one.URLs, one.listed))
	}
	sort.Strings(refers)
	return fmt.Sprint(c.kind, refers, c.subjects, c.embedded, c.fault)
}

// What a glance tells, encoding/json tells too.
func FuzzGlance(f *testing.F) {
	for _, text := range seeds {
		f.Add([]byte(text))
	}
	var g glance
	f.Fuzz(func(t *testing.T, text []byte) {
		if !mayBeText(text) {
			return
		}
		if quick, told := g.read(text); told {
			if slow := parse(text); said(quick) != said(slow) {
				t.Errorf("%q\n glance %s\n parse  %s", text, said(quick), said(slow))
			}
		}
	})
}

// An index without its untagged entries is an index with the other entries, in their order, and all else as it was.
func FuzzUntagged(f *testing.F) {
	for _, text := range seeds {
		f.Add([]byte(text))
	}
	type index struct {
		all  map[string]json.RawMessage
		list []json.RawMessage
	}
	read := func(t *testing.T, text []byte) index {
		var one index
		if err := json.Unmarshal(text, &one.all); err != nil {
			t.Fatal(err)
		}
		for key, value := range one.all {
			if key == "manifests" {
				if err := json.Unmarshal(value, &one.list); err != nil {
					t.Fatal(err)
				}
				delete(one.all, key)
			}
		}
		return one
	}
	f.Fuzz(func(t *testing.T, text []byte) {
		l, err := readIndex(text)
		if err != nil {
			return
		}
		before, after := read(t, l.text), read(t, l.tagged)
		if len(after.list)+l.untagged != len(before.list) || fmt.Sprint(before.all) != fmt.Sprint(after.all) {
			t.Fatalf("%q\n%q", l.text, l.tagged)
		}
		for _, entry := range before.list {
			if len(after.list) > 0 && string(after.list[0]) == string(entry) {
				after.list = after.list[1:]
			}
		}
		if len(after.list) > 0 {
			t.Errorf("%q\n%q", l.text, l.tagged)
		}
	})
}
