package oci

import (
	"bytes"
	_ "crypto/sha256" // the algorithms that digests are made with
	_ "crypto/sha512"
	"encoding/base64"
	"encoding/json"
	"errors"
	"fmt"
	"strings"

	digest "github.com/opencontainers/go-digest"
)

// What an object is. Its content tells it; a descriptor's media type only tells leaves apart, for people.
const (
	Index         = "index"
	Manifest      = "manifest"
	Artifact      = "artifact manifest"
	Configuration = "configuration"
	Layer         = "layer"
	Unknown       = "unknown"
)

// Media types that are known, Docker's among them.
var kinds = map[string]string{
	"application/vnd.oci.image.index.v1+json":                                  Index,
	"application/vnd.docker.distribution.manifest.list.v2+json":                Index,
	"application/vnd.oci.image.manifest.v1+json":                               Manifest,
	"application/vnd.docker.distribution.manifest.v2+json":                     Manifest,
	"application/vnd.docker.distribution.manifest.v1+json":                     Manifest,
	"application/vnd.docker.distribution.manifest.v1+prettyjws":                Manifest,
	"application/vnd.oci.artifact.manifest.v1+json":                            Artifact,
	"application/vnd.oci.image.config.v1+json":                                 Configuration,
	"application/vnd.docker.container.image.v1+json":                           Configuration,
	"application/vnd.oci.image.layer.v1.tar":                                   Layer,
	"application/vnd.oci.image.layer.v1.tar+gzip":                              Layer,
	"application/vnd.oci.image.layer.v1.tar+zstd":                              Layer,
	"application/vnd.oci.image.layer.nondistributable.v1.tar":                  Layer,
	"application/vnd.oci.image.layer.nondistributable.v1.tar+gzip":             Layer,
	"application/vnd.oci.image.layer.nondistributable.v1.tar+zstd":             Layer,
	"application/vnd.docker.image.rootfs.diff.tar":                             Layer,
	"application/vnd.docker.image.rootfs.diff.tar.gzip":                        Layer,
	"application/vnd.docker.image.rootfs.foreign.diff.tar.gzip":                Layer,
	"application/vnd.docker.image.rootfs.foreign.diff.tar":                     Layer,
	"application/vnd.oci.empty.v1+json":                                        Configuration,
	"application/vnd.cncf.helm.config.v1+json":                                 Configuration,
	"application/vnd.cncf.helm.chart.content.v1.tar+gzip":                      Layer,
	"application/vnd.docker.distribution.manifest.v1+prettyjws; charset=utf-8": Manifest,
}

// mediaTypes are the known ones by themselves, so that a text's bytes need not be copied.
var mediaTypes = func() map[string]string {
	all := map[string]string{}
	for name := range kinds {
		all[name] = name
	}
	return all
}()

func mediaType(word []byte) string {
	if name, known := mediaTypes[string(word)]; known {
		return name
	}
	return string(word)
}

// kindOf is what the media type says; what it does not know is Unknown.
func kindOf(mediaType string) string {
	if kind, known := kinds[mediaType]; known {
		return kind
	}
	return Unknown
}

// descriptor is what a text says of a blob that it names.
type descriptor struct {
	MediaType   string            `json:"mediaType"`
	Digest      digest.Digest     `json:"digest"`
	Size        int64             `json:"size"`
	URLs        []string          `json:"urls"`
	Annotations map[string]string `json:"annotations"`
	Data        []byte            `json:"data"`

	listed bool   // it stands in a list of manifests
	tag    string // the one that what holds from outside has it under
}

// document has the fields of every kind of manifest and index, of which each has some. They are read one by one, so that
// a wrong one hides none of the others.
type document struct {
	SchemaVersion json.RawMessage `json:"schemaVersion"`
	MediaType     json.RawMessage `json:"mediaType"`
	Manifests     json.RawMessage `json:"manifests"`
	Config        json.RawMessage `json:"config"`
	Layers        json.RawMessage `json:"layers"`
	Blobs         json.RawMessage `json:"blobs"`
	Subject       json.RawMessage `json:"subject"`
	// Docker's first schema names its layers so.
	FSLayers json.RawMessage `json:"fsLayers"`
}

// content is what a text says.
type content struct {
	kind     string
	refers   []descriptor    // all that stand in its lists, embedded ones too
	subjects []digest.Digest // its own, and those of what is embedded
	embedded []digest.Digest // of descriptors that hold a manifest or an index themselves
	more     []byte          // to be scanned beside the text: strings without their escapes, and what descriptors hold
	fault    error           // why it cannot be read as what it seems to be
}

// spaces are what JSON takes for white space.
const spaces = " \t\r\n"

// mayBeText says whether bytes begin as a manifest or an index does.
func mayBeText(text []byte) bool {
	rest := bytes.TrimLeft(text, spaces)
	return len(rest) > 0 && rest[0] == '{'
}

// isObject says whether a field is there and is an object.
func isObject(field json.RawMessage) bool { return len(field) > 0 && field[0] == '{' }

// errNoJSON is the fault of a text that does not parse.
var errNoJSON = errors.New("is no JSON")

// parse reads a text. It answers nil for a leaf: what does not begin as an object, or is one without a key of a manifest
// or of an index. What begins as an object and cannot be read is a text with a fault.
func parse(text []byte) *content {
	if !mayBeText(text) {
		return nil
	}
	var d document
	if err := json.Unmarshal(text, &d); err != nil {
		return &content{kind: Unknown, fault: fmt.Errorf("%w: %v", errNoJSON, err)}
	}
	// A configuration has a field of the same name, which has no digest; a statement about software has a list of subjects.
	var config struct {
		Digest json.RawMessage `json:"digest"`
	}
	configures := isObject(d.Config) && json.Unmarshal(d.Config, &config) == nil && len(config.Digest) > 0
	named := len(d.SchemaVersion) > 0 || len(d.MediaType) > 0 || configures || isObject(d.Subject)
	if !named && len(d.Manifests) == 0 && len(d.Layers) == 0 && len(d.Blobs) == 0 && len(d.FSLayers) == 0 {
		return nil
	}
	c := &content{kind: Unknown}
	var mediaType string
	if len(d.MediaType) > 0 {
		c.wrong("mediaType", json.Unmarshal(d.MediaType, &mediaType))
	}
	if len(d.SchemaVersion) > 0 {
		var version int
		c.wrong("schemaVersion", json.Unmarshal(d.SchemaVersion, &version))
	}
	c.list("manifests", d.Manifests)
	if len(d.Config) > 0 && (configures || len(d.Layers) > 0 || len(d.Blobs) > 0 || kindOf(mediaType) == Manifest) {
		c.one("config", d.Config)
	}
	c.list("layers", d.Layers)
	c.list("blobs", d.Blobs)
	c.fsLayers(d.FSLayers)
	if len(d.Subject) > 0 && string(d.Subject) != "null" {
		c.subject(d.Subject)
	}
	c.kind = kindBy(kindOf(mediaType), len(d.Manifests) > 0, len(d.Blobs) > 0, configures || len(d.Layers) > 0 || len(d.FSLayers) > 0 || isObject(d.Subject))
	// The scan sees bytes as they stand; what is written with escapes, or in base 64, it sees here.
	if bytes.IndexByte(text, '\\') >= 0 || bytes.Contains(bytes.ToLower(text), []byte("data")) {
		c.spell(text)
	}
	return c
}

// kindBy is what a text is, by what its media type says and by the keys that it has.
func kindBy(said string, manifests, blobs, others bool) string {
	switch {
	case said == Index || manifests:
		return Index
	case said == Artifact || blobs:
		return Artifact
	case said == Manifest || others:
		return Manifest
	}
	return Unknown
}

// wrong keeps the first fault.
func (c *content) wrong(field string, err error) {
	if err != nil && c.fault == nil {
		c.fault = fmt.Errorf("%s: %w", field, err)
	}
}

// list reads a list of descriptors, each for itself.
func (c *content) list(field string, text json.RawMessage) {
	if len(text) == 0 {
		return
	}
	var all []json.RawMessage
	c.wrong(field, json.Unmarshal(text, &all))
	for _, one := range all {
		c.one(field, one)
	}
}

// one reads a descriptor. Of a wrong one the digest may still be right.
func (c *content) one(field string, text json.RawMessage) {
	d, err := read(text)
	c.wrong(field, err)
	if d.Digest == "" {
		return
	}
	d.listed = field == "manifests"
	c.refers = append(c.refers, d)
	if len(d.Data) > 0 {
		c.embed(field, d)
	}
}

// read is a descriptor, with its digest alone if another field of it is wrong.
func read(text json.RawMessage) (descriptor, error) {
	var d descriptor
	err := json.Unmarshal(text, &d)
	if err != nil {
		var least struct {
			Digest digest.Digest `json:"digest"`
		}
		if json.Unmarshal(text, &least) == nil {
			d = descriptor{Digest: least.Digest}
		}
	}
	if !valid(d.Digest) {
		return d, fmt.Errorf("it names %q: %w", d.Digest, d.Digest.Validate())
	}
	return d, err
}

// embed takes in what a descriptor holds.
func (c *content) embed(field string, d descriptor) {
	if d.Digest.Validate() == nil && d.Digest.Algorithm().FromBytes(d.Data) != d.Digest {
		c.wrong(field, fmt.Errorf("the data of %s do not have that digest", d.Digest))
	}
	c.embedded = append(c.embedded, d.Digest)
	c.more = append(append(c.more, d.Data...), '\n')
	inner := parse(d.Data)
	if inner == nil {
		return
	}
	c.more = append(c.more, inner.more...)
	if inner.fault != nil && kindOf(d.MediaType) != Unknown {
		c.wrong(field, fmt.Errorf("the data of %s: %w", d.Digest, inner.fault))
	}
	c.refers = append(c.refers, inner.refers...)
	c.subjects = append(c.subjects, inner.subjects...)
	c.embedded = append(c.embedded, inner.embedded...)
}

func (c *content) fsLayers(text json.RawMessage) {
	if len(text) == 0 {
		return
	}
	var layers []struct {
		BlobSum digest.Digest `json:"blobSum"`
	}
	c.wrong("fsLayers", json.Unmarshal(text, &layers))
	for _, layer := range layers {
		c.wrong("fsLayers", layer.BlobSum.Validate())
		c.refers = append(c.refers, descriptor{MediaType: "application/vnd.docker.image.rootfs.diff.tar.gzip", Digest: layer.BlobSum})
	}
}

func (c *content) subject(text json.RawMessage) {
	d, err := read(text)
	c.wrong("subject", err)
	if d.Digest != "" {
		c.subjects = append(c.subjects, d.Digest)
	}
	if len(d.Data) > 0 {
		c.embed("subject", d)
	}
}

// errDeep ends a chain of data within data.
var errDeep = errors.New("data within data within data")

// mostDeep is how far data within data are followed.
const mostDeep = 8

// spell takes every string of a text without its escapes, and what those called data hold.
func (c *content) spell(text []byte) { c.spellInto(text, 0) }

func (c *content) spellInto(text []byte, deep int) {
	if deep == mostDeep {
		c.wrong("data", errDeep)
		return
	}
	decoder := json.NewDecoder(bytes.NewReader(text))
	decoder.UseNumber()
	// Whether each open bracket is an object's, and in an object whether a key is due.
	var objects, keys []bool
	last := ""
	for {
		token, err := decoder.Token()
		if err != nil {
			return
		}
		top := len(objects) - 1
		switch token := token.(type) {
		case json.Delim:
			if token == '{' || token == '[' {
				objects, keys = append(objects, token == '{'), append(keys, token == '{')
				continue
			}
			objects, keys = objects[:top], keys[:top]
			if top = top - 1; top >= 0 && objects[top] {
				keys[top] = true
			}
			continue
		case string:
			c.more = append(append(c.more, token...), '\n')
			if top >= 0 && objects[top] && keys[top] {
				last, keys[top] = token, false
				continue
			}
			if strings.EqualFold(last, "data") {
				if held, err := base64.StdEncoding.DecodeString(token); err == nil {
					c.more = append(append(c.more, held...), '\n')
					if mayBeText(held) {
						c.spellInto(held, deep+1)
					}
				}
			}
		}
		if top >= 0 && objects[top] {
			keys[top] = true
		}
	}
}
