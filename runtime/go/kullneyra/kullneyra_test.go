package kullneyra_test

import (
	"errors"
	"fmt"
	"math/rand"
	"strings"
	"sync"
	"testing"

	"kullneyra.example/go/kullneyra"
)

// Store S of the specification: 0→1, 0→2, 1→3, 2→3, 3→0, 5→4.
var storeS = kullneyra.Graph{Offsets: []uint32{0, 2, 3, 4, 5, 5, 6}, Targets: []uint32{1, 2, 3, 3, 0, 4}}

func buffers(n, workers int) kullneyra.Buffers {
	return kullneyra.Buffers{
		Marks:   make([]byte, n),
		Work:    make([]uint32, kullneyra.Work(n, workers)),
		Tallies: make([]uint64, kullneyra.Tallies(workers)),
	}
}

func TestVersion(t *testing.T) {
	if kullneyra.LibraryVersion() != kullneyra.Version {
		t.Errorf("the library is %s, the package %s", kullneyra.LibraryVersion(), kullneyra.Version)
	}
}

func ExampleMarkAll() {
	b := buffers(6, 1)
	marked, err := kullneyra.MarkAll(storeS, []uint32{0}, kullneyra.Settings{Workers: 1, Batch: 1024, Cutoff: 4096}, b)
	fmt.Println(marked.Finished, marked.Live, marked.Followed, err)
	list := make([]uint32, 6)
	swept, err := kullneyra.Sweep(b.Marks, []uint64{100, 200, 300, 400, 500, 600}, list)
	fmt.Println(list[:swept.Dead], swept.Freed, err)
	// Output:
	// true 4 5 <nil>
	// [4 5] 1100 <nil>
}

func ExampleMark() {
	b := buffers(6, 2)
	marked, err := kullneyra.Mark(storeS, []uint32{0}, kullneyra.Settings{Workers: 2, Batch: 1, Cutoff: 1}, []byte{0, 0, 1, 0, 0, 0}, b)
	fmt.Println(marked.Finished, marked.Moved, err)
	// Output: false 3 <nil>
}

func ExampleRefusal() {
	_, err := kullneyra.Header(nil)
	var refusal kullneyra.Refusal
	fmt.Println(errors.As(err, &refusal), refusal == kullneyra.Short, err)
	// Output: true true refusal 1: the bytes end too soon for a record
}

func ExampleOwnerOf() {
	for _, mark := range []byte{0, 1, 2, kullneyra.NewlyLive} {
		fmt.Println(kullneyra.OwnerOf(mark, false))
	}
	fmt.Println(kullneyra.OwnerOf(1, true))
	// Output:
	// nobody
	// box 0
	// box 1
	// reached
	// start
}

// A slice that a call writes and that overlaps another one: refused, and every slice is as it was.
func TestOverlap(t *testing.T) {
	settings := kullneyra.Settings{Workers: 1, Batch: 1, Cutoff: 1}
	for name, call := range map[string]func(words []uint32) error{
		"Add in place": func(words []uint32) error {
			g := kullneyra.Graph{Offsets: words[:2], Targets: words[2:3]}
			renewed := kullneyra.Renewed{
				Graph: kullneyra.Graph{Offsets: words[:2], Targets: words[2:4]}, Marks: []byte{1}, Work: make([]uint32, 1),
			}
			return kullneyra.Add(g, []uint32{0}, []uint32{0}, renewed)
		},
		"Remove, new targets over the numbers": func(words []uint32) error {
			g := kullneyra.Graph{Offsets: []uint32{0, 2}, Targets: []uint32{0, 0}}
			renewed := kullneyra.Renewed{
				Graph: kullneyra.Graph{Offsets: make([]uint32, 2), Targets: words[:1]}, Marks: []byte{1}, Work: make([]uint32, 1),
			}
			return kullneyra.Remove(g, words[:1], []uint32{0}, renewed)
		},
		"Mark, work over the starts": func(words []uint32) error {
			g := kullneyra.Graph{Offsets: []uint32{0, 0}}
			b := kullneyra.Buffers{Marks: make([]byte, 1), Work: words[1:7], Tallies: make([]uint64, 4)}
			_, err := kullneyra.Mark(g, words[6:7], settings, nil, b)
			return err
		},
		"Hops, work over the hops": func(words []uint32) error {
			g := kullneyra.Graph{Offsets: []uint32{0, 0}}
			return kullneyra.Hops(g, []uint32{0}, words[:1], words[:2])
		},
	} {
		words := []uint32{0, 1, 0, 3, 4, 5, 0, 7}
		err := call(words)
		if err != kullneyra.Buffer || fmt.Sprint(words) != "[0 1 0 3 4 5 0 7]" {
			t.Errorf("%s: %v, %v", name, err, words)
		}
	}
}

func ExampleReferences() {
	fmt.Println(kullneyra.References(storeS, 0), kullneyra.References(storeS, 6))
	// Output: [1 2] []
}

func ExampleResume() {
	words, _ := kullneyra.SavedWords(6, 2)
	saved, b := make([]uint32, words), buffers(6, 2)
	settings := kullneyra.Settings{Workers: 2, Batch: 1, Cutoff: 1}
	stopped, err := kullneyra.Begin(storeS, []uint32{0}, settings, []byte{0, 0, 1, 0, 0, 0}, b, saved)
	fmt.Println(stopped.Finished, stopped.Moved, err)
	for !stopped.Finished && stopped.Sound {
		stopped, err = kullneyra.Resume(storeS, []uint32{0}, settings, []byte{0, 1, 1, 0}, b, saved)
	}
	fmt.Println(stopped.Live, stopped.Followed, err)
	// Output:
	// false 3 <nil>
	// 4 5 <nil>
}

func ExampleSeed() {
	seed := kullneyra.Seed{First: 1}
	for i := 0; i < 3; i++ {
		card, _ := seed.Draw()
		fmt.Print(card, " ")
	}
	// Output: 646 603 612
}

func ExampleHops() {
	hops, work := make([]uint32, 6), make([]uint32, 12)
	err := kullneyra.Hops(storeS, []uint32{0}, hops, work)
	fmt.Println(hops[:4], hops[4] == kullneyra.NoHops, err)
	// Output: [0 1 1 2] true <nil>
}

func ExampleAdd() {
	// 0→1, 2→3, and 0 and 1 live. With 1→2 the others do, too.
	g := kullneyra.Graph{Offsets: []uint32{0, 1, 1, 2, 2}, Targets: []uint32{1, 3}}
	r := kullneyra.Renewed{Graph: kullneyra.Graph{Offsets: make([]uint32, 5), Targets: make([]uint32, 3)}, Marks: []byte{1, 1, 0, 0}, Work: make([]uint32, 4)}
	err := kullneyra.Add(g, []uint32{1}, []uint32{2}, r)
	fmt.Println(r.Graph.Offsets, r.Graph.Targets, r.Marks, err)
	// Output: [0 1 2 3 3] [1 2 3] [1 1 255 255] <nil>
}

func ExampleExport() {
	g := kullneyra.Graph{Offsets: []uint32{0, 1, 1}, Targets: []uint32{1}}
	length, _ := kullneyra.ExportLength(g)
	text := make([]byte, length)
	err := kullneyra.Export(g, text)
	fmt.Printf("%s%v\n", text, err)
	// Output:
	// %%MatrixMarket matrix coordinate pattern general
	// 2 2 1
	// 1 2
	// <nil>
}

// drawn is a graph of n objects, and what its starts reach, worked out here.
func drawn(rng *rand.Rand, n int) (g kullneyra.Graph, starts []uint32, reached []bool) {
	g.Offsets = []uint32{0}
	for v := 0; v < n; v++ {
		for k := rng.Intn(4); k > 0; k-- {
			g.Targets = append(g.Targets, uint32(rng.Intn(n)))
		}
		g.Offsets = append(g.Offsets, uint32(len(g.Targets)))
	}
	for k := 1 + rng.Intn(3); k > 0; k-- {
		starts = append(starts, uint32(rng.Intn(n)))
	}
	reached = make([]bool, n)
	todo := append([]uint32(nil), starts...)
	for len(todo) > 0 {
		v := todo[0]
		if todo = todo[1:]; !reached[v] {
			reached[v] = true
			todo = append(todo, g.Targets[g.Offsets[v]:g.Offsets[v+1]]...)
		}
	}
	return g, starts, reached
}

// A finished collection marks exactly what is reachable; hops tell the same objects.
func check(rng *rand.Rand) error {
	n := 1 + rng.Intn(30)
	g, starts, reached := drawn(rng, n)
	workers := 1 + rng.Intn(6)
	rounds := 7*len(g.Targets) + 4*workers + 2
	length, err := kullneyra.ScheduleLength(rounds, uint32(workers))
	if err != nil {
		return err
	}
	schedule := make([]byte, length)
	seed := kullneyra.Seed{First: 1 + uint32(rng.Intn(1000)), Second: rng.Uint32()}
	if err := seed.DealSeed(rounds, uint32(workers), schedule); err != nil {
		return err
	}
	b := buffers(n, workers)
	settings := kullneyra.Settings{Workers: uint32(workers), Batch: 1 + uint32(rng.Intn(5)), Cutoff: 1 + uint32(rng.Intn(5))}
	marked, err := kullneyra.Mark(g, starts, settings, schedule, b)
	if err != nil || !marked.Finished {
		return fmt.Errorf("finished %v, %v", marked.Finished, err)
	}
	whole := buffers(n, workers)
	if all, err := kullneyra.MarkAll(g, starts, settings, whole); err != nil || !all.Finished || all.Live != marked.Live {
		return fmt.Errorf("all at once: %+v, %v", all, err)
	}
	hops, work := make([]uint32, n), make([]uint32, 2*n)
	if err := kullneyra.Hops(g, starts, hops, work); err != nil {
		return err
	}
	for v := range reached {
		if (b.Marks[v] != 0) != reached[v] || (whole.Marks[v] != 0) != reached[v] || (hops[v] != kullneyra.NoHops) != reached[v] {
			return fmt.Errorf("object %d of %v from %v: marks %d and %d, %d hops, reached %v", v, g, starts, b.Marks[v], whole.Marks[v], hops[v], reached[v])
		}
	}
	return nil
}

func TestRandom(t *testing.T) {
	rng := rand.New(rand.NewSource(7))
	for i := 0; i < 3000; i++ {
		if err := check(rng); err != nil {
			t.Fatal(err)
		}
	}
}

func TestSideBySide(t *testing.T) {
	var all sync.WaitGroup
	for k := 0; k < 8; k++ {
		all.Add(1)
		go func(source int64) {
			defer all.Done()
			rng := rand.New(rand.NewSource(source))
			for i := 0; i < 300; i++ {
				if err := check(rng); err != nil {
					t.Error(err)
					return
				}
			}
		}(int64(k))
	}
	all.Wait()
}

func TestNoAllocation(t *testing.T) {
	b, list, hops, work := buffers(6, 2), make([]uint32, 6), make([]uint32, 6), make([]uint32, 12)
	sizes, starts, schedule := make([]uint64, 6), []uint32{0}, make([]byte, 80)
	words, _ := kullneyra.SavedWords(6, 2)
	saved, cards := make([]uint32, words), []uint32{0, 719}
	settings := kullneyra.Settings{Workers: 2, Batch: 1, Cutoff: 1}
	seed := kullneyra.Seed{First: 1}
	renewed := kullneyra.Renewed{Graph: kullneyra.Graph{Offsets: make([]uint32, 7), Targets: make([]uint32, 6)}, Marks: make([]byte, 6), Work: make([]uint32, 6)}
	length, _ := kullneyra.ExportLength(storeS)
	out := make([]byte, length)
	allocations := testing.AllocsPerRun(100, func() {
		kullneyra.Header(schedule)
		kullneyra.Read(schedule, storeS.Offsets, storeS.Targets, sizes, list)
		kullneyra.References(storeS, 1)
		kullneyra.Mark(storeS, starts, settings, schedule, b)
		kullneyra.Begin(storeS, starts, settings, schedule, b, saved)
		kullneyra.Resume(storeS, starts, settings, schedule, b, saved)
		kullneyra.Sweep(b.Marks, sizes, list)
		kullneyra.Deal(cards, 2, schedule[:8])
		kullneyra.Hops(storeS, starts, hops, work)
		seed.Draw()
		seed.DealSeed(2, 2, schedule[:8])
		kullneyra.Begin(storeS, nil, settings, nil, b, saved)
		kullneyra.Add(storeS, nil, nil, renewed)
		kullneyra.Remove(storeS, nil, starts, renewed)
		kullneyra.Export(storeS, out)
		kullneyra.Import(out, renewed.Graph.Offsets, renewed.Graph.Targets, sizes)
	})
	if allocations != 0 {
		t.Errorf("%v allocations in a round of calls", allocations)
	}
}

// catalogueS is the catalogue of store S, whose sizes are 100 to 600.
func catalogueS() (out []byte) {
	put := func(width int, number uint32) {
		for ; width > 0; width-- {
			out = append(out, byte(number))
			number >>= 8
		}
	}
	record := func(length, kind uint32, words ...uint32) {
		put(2, length)
		put(2, kind)
		for _, word := range words {
			put(4, word)
		}
	}
	record(16, 1, 6, 6, 0)
	for size := uint32(100); size <= 600; size += 100 {
		record(12, 2, size, 0)
	}
	for v := uint32(0); v < 6; v++ {
		for _, target := range storeS.Targets[storeS.Offsets[v]:storeS.Offsets[v+1]] {
			record(12, 3, v, target)
		}
	}
	return out
}

// say is what a call answers, or what was lent; a refusal is its number.
func say(values ...any) string {
	for i, value := range values {
		if refusal, is := value.(kullneyra.Refusal); is {
			values[i] = fmt.Sprintf("refusal %d", uint32(refusal))
		}
	}
	return strings.TrimSuffix(fmt.Sprintln(values...), "\n")
}

// Each call with its answer and what it leaves, and refused: then the answer is zero and what was lent is as before.
func TestCalls(t *testing.T) {
	catalogue, text := catalogueS(), []byte("%%MatrixMarket matrix coordinate pattern general\n2 2 1\n1 2\n")
	names, named, texts, ends, owners := []byte("0aaaab"), []uint32{2, 0, 1}, []byte("0aaab"), []uint64{4, 5}, []uint32{1, 0}
	mentioning, mentioned := make([]uint32, 3), make([]uint32, 3)
	scanWork := make([]uint32, kullneyra.ScanWork)
	written := func(words []uint32) (count int) {
		for _, word := range words {
			if word != 0 {
				count++
			}
		}
		return count
	}
	two := kullneyra.Graph{Offsets: []uint32{0, 1, 1}, Targets: []uint32{1}}
	none := kullneyra.Graph{Offsets: []uint32{0}}
	offsets, targets, sizes, starts := make([]uint32, 7), make([]uint32, 6), make([]uint64, 6), make([]uint32, kullneyra.Starts)
	settings, b, list := kullneyra.Settings{Workers: 1, Batch: 2, Cutoff: 1}, buffers(6, 1), make([]uint32, 6)
	saved, hops, work := make([]uint32, 50), make([]uint32, 6), make([]uint32, 12)
	schedule, seed, noSeed := make([]byte, 6), kullneyra.Seed{First: 1}, kullneyra.Seed{Second: 5}
	renewed := kullneyra.Renewed{Graph: kullneyra.Graph{Offsets: make([]uint32, 3), Targets: make([]uint32, 2)}, Marks: []byte{1, 2}, Work: make([]uint32, 2)}
	removed := kullneyra.Renewed{Graph: kullneyra.Graph{Offsets: make([]uint32, 3)}, Marks: make([]byte, 2), Work: make([]uint32, 2)}
	out, from := make([]byte, len(text)), []uint32{0}
	for _, c := range []struct{ call, got, want string }{
		{"Header", say(kullneyra.Header(catalogue)), "{6 6 0} <nil>"},
		{"Header", say(kullneyra.Header(catalogue[:15])), "{0 0 0} refusal 1"},
		{"Read", say(kullneyra.Read(catalogue, offsets, targets, sizes, starts)), "{6 6 0 1} <nil>"},
		{"Read", say(kullneyra.Read(catalogue[1:], offsets, targets, sizes, starts)), "{0 0 0 0} refusal 1"},
		{"Read", say(kullneyra.Read(catalogue, offsets, targets, sizes[1:], starts)), "{0 0 0 0} refusal 7"},
		{"Read", say(offsets, targets, sizes, starts[:2]), "[0 2 3 4 5 5 6] [1 2 3 3 0 4] [100 200 300 400 500 600] [0 0]"},
		{"References", say(kullneyra.References(storeS, 0), kullneyra.References(storeS, 6)), "[1 2] []"},
		{"Mark", say(kullneyra.Mark(storeS, from, settings, make([]byte, 24), b)), "{true 4 5 0 0 12 0} <nil>"},
		{"Mark", say(kullneyra.Mark(storeS, from, settings, []byte{1, 0}, b)), "{false 0 0 0 0 0 0} refusal 9"},
		{"Mark", say(b.Marks, kullneyra.TallyOf(b.Tallies, 0)), "[1 1 1 1 0 0] {5 3 0 0}"},
		{"SavedWords", say(kullneyra.SavedWords(6, 1)), "50 <nil>"},
		{"SavedWords", say(kullneyra.SavedWords(6, 17)), "0 refusal 8"},
		{"Begin", say(kullneyra.Begin(storeS, from, settings, make([]byte, 22), b, saved)), "{false 4 5 0 0 11 0 true} <nil>"},
		{"Begin", say(kullneyra.Begin(storeS, from, settings, nil, b, saved[1:])), "{false 0 0 0 0 0 0 false} refusal 7"},
		{"Resume", say(kullneyra.Resume(storeS, from, settings, make([]byte, 2), b, saved)), "{true 4 5 0 0 12 0 true} <nil>"},
		{"Resume", say(kullneyra.Resume(storeS, from, settings, nil, b, make([]uint32, 50))), "{false 0 0 0 0 0 0 false} refusal 14"},
		{"Resume", say(b.Marks, saved[:3], saved[9:10]), "[1 1 1 1 0 0] [2 4 0] [12]"},
		{"Sweep", say(kullneyra.Sweep(b.Marks, sizes, list)), "{2 1100} <nil>"},
		{"Sweep", say(kullneyra.Sweep(b.Marks[1:], sizes, list)), "{0 0} refusal 7"},
		{"Sweep", say(list), "[4 5 0 0 0 0]"},
		{"ScheduleLength", say(kullneyra.ScheduleLength(4, 6)), "48 <nil>"},
		{"ScheduleLength", say(kullneyra.ScheduleLength(4, 7)), "0 refusal 15"},
		{"Deal", say(kullneyra.Deal([]uint32{719}, 3, schedule)), "<nil>"},
		{"Deal", say(kullneyra.Deal([]uint32{720}, 3, schedule)), "refusal 15"},
		{"Deal", say(schedule), "[2 1 1 0 0 2]"},
		{"Draw", say(seed.Draw()), "646 <nil>"},
		{"Draw", say(noSeed.Draw()), "0 refusal 16"},
		{"Draw", say(seed, noSeed), "{270369 362437} {0 5}"},
		{"Seed.DealSeed", say(seed.DealSeed(1, 3, schedule)), "<nil>"},
		{"Seed.DealSeed", say(noSeed.DealSeed(1, 3, schedule)), "refusal 16"},
		{"Seed.DealSeed", say(seed, noSeed, schedule), "{67634689 724874} {0 5} [0 1 1 2 2 0]"},
		{"HopWords", say(kullneyra.HopWords(6)), "12 <nil>"},
		{"HopWords", say(kullneyra.HopWords(0)), "0 refusal 4"},
		{"Hops", say(kullneyra.Hops(storeS, []uint32{3}, hops, work)), "<nil>"},
		{"Hops", say(kullneyra.Hops(storeS, nil, hops, work)), "refusal 13"},
		{"Hops", say(hops), "[1 2 2 0 4294967295 4294967295]"},
		{"UpdateWords", say(kullneyra.UpdateWords(6)), "6 <nil>"},
		{"UpdateWords", say(kullneyra.UpdateWords(65537)), "0 refusal 4"},
		{"Add", say(kullneyra.Add(two, []uint32{1}, from, renewed)), "<nil>"},
		{"Add", say(kullneyra.Add(two, []uint32{2}, from, renewed)), "refusal 5"},
		{"Add", say(renewed.Graph, renewed.Marks), "{[0 1 2] [1 0]} [1 2]"},
		{"Remove", say(kullneyra.Remove(two, []uint32{0}, from, removed)), "<nil>"},
		{"Remove", say(kullneyra.Remove(two, []uint32{1}, from, removed)), "refusal 5"},
		{"Remove", say(removed.Graph, removed.Marks), "{[0 0 0] []} [1 0]"},
		{"MarketHeader", say(kullneyra.MarketHeader(text)), "{2 1 0} <nil>"},
		{"MarketHeader", say(kullneyra.MarketHeader(text[1:])), "{0 0 0} refusal 18"},
		{"Import", say(kullneyra.Import(text, offsets[:3], targets[:1], sizes[:2])), "{2 1 0} <nil>"},
		{"Import", say(kullneyra.Import(text, offsets[:3], targets, sizes[:2])), "{0 0 0} refusal 7"},
		{"Import", say(offsets, targets, sizes[:3]), "[0 1 1 4 5 5 6] [1 2 3 3 0 4] [0 0 300]"},
		{"ExportLength", say(kullneyra.ExportLength(two)), fmt.Sprint(len(text), " <nil>")},
		{"ExportLength", say(kullneyra.ExportLength(none)), "0 refusal 4"},
		{"Export", say(kullneyra.Export(two, out)), "<nil>"},
		{"Export", say(kullneyra.Export(two, out[1:])), "refusal 7"},
		{"Export", string(out), string(text)},
		{"ScanLength", say(kullneyra.ScanLength(3, 2, names, named, texts, ends, owners, scanWork)), "3 <nil>"},
		{"ScanLength", say(kullneyra.ScanLength(3, 0, nil, nil, nil, nil, nil, scanWork)), "0 refusal 19"},
		{"Scan", say(kullneyra.Scan(3, 2, names, named, texts, ends, owners, scanWork, mentioning, mentioned[1:])), "refusal 7"},
		{"Scan", say(kullneyra.Scan(3, 2, names, named, texts, ends, owners, scanWork[1:], mentioning, mentioned)), "refusal 7"},
		{"Scan", say(kullneyra.Scan(3, 2, names, named, texts, ends, owners, scanWork, mentioning, mentioned)), "<nil>"},
		{"Scan", say(mentioning, mentioned), "[1 1 1] [2 0 0]"},
		{"Scan", say(written(scanWork)), "0"},
	} {
		if c.got != c.want {
			t.Errorf("%s: got %s, want %s", c.call, c.got, c.want)
		}
	}
}
