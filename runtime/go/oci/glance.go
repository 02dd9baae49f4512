package oci

import (
	"bytes"
	"strings"

	digest "github.com/opencontainers/go-digest"
)

// glance reads, in one pass, texts as people write them: letters of ASCII without escapes, keys spelled as the specification
// spells them and each once, whole numbers, no data in descriptors. It answers false for every other text, and for whatever
// has a fault; parse reads those with encoding/json. A test compares the two.
type glance struct {
	text  []byte
	at    int
	seen  uint // the keys of a manifest or an index that the text has
	kind  string
	lists []descriptor
	own   descriptor // what is called config
	about digest.Digest
}

// The keys of a manifest or an index.
const (
	hasVersion = 1 << iota
	hasType
	hasManifests
	hasConfig
	hasLayers
	hasBlobs
	hasSubject
)

var (
	textKeys = []string{"schemaVersion", "mediaType", "manifests", "config", "layers", "blobs", "subject", "fsLayers", "data"}
	blobKeys = []string{"mediaType", "digest", "size", "urls", "annotations", "data"}
	dataKeys = []string{"data"}
	literals = [][]byte{[]byte("true"), []byte("false"), []byte("null")}
)

// deepest is how far brackets are followed here.
const deepest = 50

// read answers what the text says, nil for a leaf, and whether it could tell.
func (g *glance) read(text []byte) (*content, bool) {
	*g = glance{text: text, kind: Unknown, lists: g.lists[:0]}
	if !g.object(1, textKeys, g.topKey) {
		return nil, false
	}
	g.skipSpace()
	if g.at != len(text) {
		return nil, false
	}
	configures := g.own.Digest != ""
	inside := g.seen&(hasManifests|hasLayers|hasBlobs) != 0
	if g.seen&(hasVersion|hasType|hasSubject) == 0 && !configures && !inside {
		return nil, true
	}
	if g.seen&hasConfig != 0 && !configures && (g.seen&(hasLayers|hasBlobs) != 0 || g.kind == Manifest) {
		return nil, false
	}
	c := &content{kind: kindBy(g.kind, g.seen&hasManifests != 0, g.seen&hasBlobs != 0, configures || g.seen&(hasLayers|hasSubject) != 0), refers: g.lists}
	if configures {
		c.refers = append(c.refers, g.own)
		g.lists = c.refers
	}
	if g.about != "" {
		c.subjects = []digest.Digest{g.about}
	}
	return c, true
}

// topKey reads what stands behind a key of the text itself.
func (g *glance) topKey(key int, deep int) bool {
	if key < 0 {
		return g.value(deep)
	}
	mark := uint(1) << key
	if g.seen&mark != 0 {
		return false
	}
	g.seen |= mark
	switch mark {
	case hasVersion:
		_, is := g.number()
		return is
	case hasType:
		word, is := g.word()
		g.kind = kinds[string(word)]
		if g.kind == "" {
			g.kind = Unknown
		}
		return is
	case hasConfig:
		return g.descriptor(&g.own, deep)
	case hasSubject:
		var one descriptor
		if !g.descriptor(&one, deep) {
			return false
		}
		g.about = one.Digest
		return one.Digest != ""
	case hasManifests, hasLayers, hasBlobs:
		return g.array(deep, func() bool {
			one := descriptor{listed: mark == hasManifests}
			if !g.descriptor(&one, deep+1) || one.Digest == "" {
				return false
			}
			g.lists = append(g.lists, one)
			return true
		})
	}
	return false
}

// descriptor reads one; its digest stays empty if it has none.
func (g *glance) descriptor(into *descriptor, deep int) bool {
	seen := uint(0)
	return g.object(deep+1, blobKeys, func(key, deep int) bool {
		if key < 0 {
			return g.value(deep)
		}
		if seen&(1<<key) != 0 {
			return false
		}
		seen |= 1 << key
		switch blobKeys[key] {
		case "mediaType":
			word, is := g.word()
			into.MediaType = mediaType(word)
			return is
		case "digest":
			word, is := g.word()
			if !is {
				return false
			}
			into.Digest = digest.Digest(word)
			return valid(into.Digest)
		case "size":
			number, is := g.number()
			into.Size = number
			return is
		case "urls":
			return g.array(deep, func() bool {
				word, is := g.word()
				into.URLs = append(into.URLs, string(word))
				return is
			})
		case "annotations":
			return g.object(deep+1, dataKeys, func(key, _ int) bool {
				_, is := g.word()
				return is && key < 0
			})
		}
		return false
	})
}

func (g *glance) skipSpace() {
	for g.at < len(g.text) {
		switch g.text[g.at] {
		case ' ', '\t', '\r', '\n':
			g.at++
		default:
			return
		}
	}
}

// next takes a letter, behind white space.
func (g *glance) next(letter byte) bool {
	g.skipSpace()
	if g.at < len(g.text) && g.text[g.at] == letter {
		g.at++
		return true
	}
	return false
}

// word reads a string without escapes.
func (g *glance) word() ([]byte, bool) {
	if !g.next('"') {
		return nil, false
	}
	begin := g.at
	for ; g.at < len(g.text); g.at++ {
		letter := g.text[g.at]
		if letter == '"' {
			g.at++
			return g.text[begin : g.at-1], true
		}
		if letter < ' ' || letter > '~' || letter == '\\' {
			return nil, false
		}
	}
	return nil, false
}

// number reads a whole number of up to eighteen digits.
func (g *glance) number() (int64, bool) {
	negative := g.next('-')
	begin, number := g.at, int64(0)
	for ; g.at < len(g.text) && g.text[g.at] >= '0' && g.text[g.at] <= '9'; g.at++ {
		if g.at-begin == 18 {
			return 0, false
		}
		number = 10*number + int64(g.text[g.at]-'0')
	}
	if g.at == begin || g.text[begin] == '0' && g.at > begin+1 {
		return 0, false
	}
	if g.at < len(g.text) && (g.text[g.at] == '.' || g.text[g.at]|' ' == 'e') {
		return 0, false
	}
	if negative {
		number = -number
	}
	return number, true
}

// object goes over an object. It tells each key by its place in the list, or as -1; a key that only differs by case is not taken.
func (g *glance) object(deep int, keys []string, each func(key, deep int) bool) bool {
	if deep > deepest || !g.next('{') {
		return false
	}
	if g.next('}') {
		return true
	}
	for {
		word, is := g.word()
		if !is || !g.next(':') {
			return false
		}
		found := -1
		for k, key := range keys {
			if len(key) != len(word) {
				continue
			}
			if string(word) == key {
				found = k
			} else if word[0]|' ' == key[0] && strings.EqualFold(string(word), key) {
				return false
			}
		}
		if !each(found, deep) {
			return false
		}
		if g.next('}') {
			return true
		}
		if !g.next(',') {
			return false
		}
	}
}

// array goes over an array; each reads one element.
func (g *glance) array(deep int, each func() bool) bool {
	if deep > deepest || !g.next('[') {
		return false
	}
	if g.next(']') {
		return true
	}
	for {
		if !each() {
			return false
		}
		if g.next(']') {
			return true
		}
		if !g.next(',') {
			return false
		}
	}
}

// value goes over whatever stands there.
func (g *glance) value(deep int) bool {
	g.skipSpace()
	if g.at == len(g.text) {
		return false
	}
	switch letter := g.text[g.at]; letter {
	case '{':
		return g.object(deep+1, dataKeys, func(key, deep int) bool { return key < 0 && g.value(deep) })
	case '[':
		return g.array(deep+1, func() bool { return g.value(deep + 1) })
	case '"':
		_, is := g.word()
		return is
	case 't', 'f', 'n':
		for _, literal := range literals {
			if bytes.HasPrefix(g.text[g.at:], literal) {
				g.at += len(literal)
				return true
			}
		}
		return false
	}
	_, is := g.number()
	return is
}
