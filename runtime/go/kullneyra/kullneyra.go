// Package kullneyra has the proved calls of the box marker as Go functions on slices: the reader, the marker, the
// sweep, and what stands around them. docs/SPECIFICATION.md says what each does.
//
// A call takes any values and any slices; one that it writes and that overlaps another of its slices is refused as
// Buffer. It answers nil or a Refusal, and beside a refusal every lent slice is as it was. No call allocates, keeps
// anything, or waits for another, so callers may run side by side as long as no slice that a call writes is shared
// with another call.
package kullneyra

import "strconv"

// Exact lengths of the lent slices, for n objects and w workers: n + 1 offsets, m targets, n sizes, Starts starts, n
// marks, Work(n, w) work words, Tallies(w) tally words, n list entries.

// Work is the number of work words of a marking.
func Work(n, workers int) int { return workers * (2*n + 4) }

// Tallies is the number of tally words of a marking.
func Tallies(workers int) int { return 4 * workers }

// Graph is n + 1 offsets and m targets.
type Graph struct {
	Offsets []uint32
	Targets []uint32
}

// Settings of a marking.
type Settings struct {
	Workers uint32
	Batch   uint32 // D
	Cutoff  uint32 // K
}

// Buffers are what a marking writes.
type Buffers struct {
	Marks   []byte   // n
	Work    []uint32 // Work(n, w)
	Tallies []uint64 // Tallies(w)
}

// Renewed is what Add and Remove write: the changed graph, and its marks.
type Renewed struct {
	Graph Graph
	Marks []byte
	Work  []uint32
}

// Seed is the two words that draws move on. The first is not 0.
type Seed struct{ First, Second uint32 }

// References is the part of the targets that holds the references of one object; empty if there is no such object.
func References(g Graph, object uint32) []uint32 {
	part, _ := references(g, object)
	return g.Targets[part.start : part.start+part.length]
}

// TallyOf is one worker's tally, of the words that a marking left.
func TallyOf(tallies []uint64, worker int) Tally {
	t := tallies[4*worker : 4*worker+4]
	return Tally{t[0], t[1], t[2], t[3]}
}

// Owner is who claimed an object: a worker's number, or one of Nobody, Start and Reached.
type Owner int

const (
	Nobody  Owner = -1 // the object is not marked
	Start   Owner = -2 // a collection starts there
	Reached Owner = -3 // Add or Remove found it live: no worker claimed it
)

// String is what the drawings say.
func (o Owner) String() string {
	switch o {
	case Nobody:
		return "nobody"
	case Start:
		return "start"
	case Reached:
		return "reached"
	}
	return "box " + strconv.Itoa(int(o))
}

// OwnerOf is who claimed an object, by its mark. A start is told by the caller, since its mark is 1, as that of what
// worker 0 claimed.
func OwnerOf(mark byte, isStart bool) Owner {
	switch {
	case mark == 0:
		return Nobody
	case mark == 1 && isStart:
		return Start
	case mark == NewlyLive:
		return Reached
	}
	return Owner(mark - 1)
}
