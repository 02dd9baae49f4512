package oci

import (
	"context"
	"encoding/binary"
	"errors"
	"fmt"
	"os"
	"sort"
	"time"

	digest "github.com/opencontainers/go-digest"
	"kullneyra.example/go/kullneyra"
)

// Records of a catalogue: kind and length.
const (
	headerKind, headerLength       = 1, 16
	objectKind, objectLength       = 2, 12
	referenceKind, referenceLength = 3, 12
	leaseKind, leaseLength         = 4, 8
	subjectKind, subjectLength     = 5, 12
)

// limits of one graph; tests make them small.
type limits struct{ objects, references int }

var graphLimits = limits{kullneyra.MostObjects, kullneyra.MostReferences}

// ErrTooLarge says that a store does not fit, not even in slices.
var ErrTooLarge = errors.New("the store is too large")

// slice is a part of a store: every object with an arrow out of it, and some of the others. Nothing goes out of those
// others, so what is dead in a slice is dead in the whole, and what lives lives.
type slice struct {
	objects    []int // the store's numbers, ascending; the first holds from outside
	references []Reference
}

// places are the numbers of objects within the slice.
func (s slice) places(objects []int) []int {
	all := make([]int, len(objects))
	for k, number := range objects {
		all[k] = sort.SearchInts(s.objects, number)
	}
	return all
}

// catalogue is the slice as store.cat, with leases on these objects.
func (s *Store) catalogue(of slice, keep []int) []byte {
	var out []byte
	record := func(kind, length uint16) {
		out = binary.LittleEndian.AppendUint16(binary.LittleEndian.AppendUint16(out, length), kind)
	}
	word := func(number int) { out = binary.LittleEndian.AppendUint32(out, uint32(number)) }
	record(headerKind, headerLength)
	word(len(of.objects))
	word(len(of.references))
	word(0)
	for _, number := range of.objects {
		record(objectKind, objectLength)
		out = binary.LittleEndian.AppendUint64(out, uint64(s.Blobs[number].Size))
	}
	for _, reference := range of.references {
		kind := uint16(referenceKind)
		if reference.Subject {
			kind = subjectKind
		}
		record(kind, referenceLength)
		word(reference.From)
		word(reference.To)
	}
	for _, number := range keep {
		record(leaseKind, leaseLength)
		word(number)
	}
	return out
}

// kept are the numbers of digests that are to be kept.
func (s *Store) kept(keep []digest.Digest) ([]int, error) {
	var all []int
	for _, name := range keep {
		number, there := s.Number(name)
		if !there {
			return nil, &Fault{name, errors.New("is to be kept and is not there")}
		}
		all = append(all, number)
	}
	return all, nil
}

// Tags are those under which a digest is listed; one that is listed without a tag adds an empty one.
func (s *Store) Tags(name digest.Digest) []string {
	var all []string
	for _, one := range s.top.entries {
		if one.Digest == name {
			all = append(all, one.tag)
		}
	}
	return all
}

// whole is the store as one slice.
func (s *Store) whole() slice {
	cut := slice{objects: make([]int, len(s.Blobs)), references: s.References}
	for number := range cut.objects {
		cut.objects[number] = number
	}
	return cut
}

// Catalogue is the store as store.cat, with leases on these digests. A digest that is not there is an error.
func (s *Store) Catalogue(keep []digest.Digest) ([]byte, error) {
	numbers, err := s.kept(keep)
	if err != nil {
		return nil, err
	}
	return s.catalogue(s.whole(), numbers), nil
}

// slices cuts the graph of these references so that each part fits.
func (s *Store) slices(references []Reference, keep []int, most limits) ([]slice, error) {
	if len(s.Blobs) <= most.objects && len(references) <= most.references {
		cut := s.whole()
		cut.references = references
		return []slice{cut}, nil
	}
	// What has an arrow out of it is in every slice, and so is what is kept.
	inner := make([]bool, len(s.Blobs))
	inner[0] = true
	for _, reference := range references {
		if reference.Subject {
			inner[reference.To] = true
		} else {
			inner[reference.From] = true
		}
	}
	for _, number := range keep {
		inner[number] = true
	}
	var common []int
	named := make([]int, len(s.Blobs)) // references to what has none
	between := 0
	for _, reference := range references {
		switch {
		case inner[reference.From] && inner[reference.To]:
			between++
		case inner[reference.From]:
			named[reference.To]++
		default:
			named[reference.From]++
		}
	}
	for number, is := range inner {
		if is {
			common = append(common, number)
		}
	}
	refused := func(count int, what string, limit int) error {
		return fmt.Errorf("%w: %d %s, where one collection takes %d; split the store, or take tags out of it and prune in steps", ErrTooLarge, count, what, limit)
	}
	if len(common) >= most.objects {
		return nil, refused(len(common), "manifests and indexes", most.objects-1)
	}
	if between > most.references {
		return nil, refused(between, "references between manifests and indexes", most.references)
	}
	var parts [][]int
	part, count := []int(nil), between
	for number := range s.Blobs {
		if inner[number] {
			continue
		}
		if between+named[number] > most.references {
			return nil, refused(between+named[number], "references", most.references)
		}
		if len(common)+len(part) == most.objects || count+named[number] > most.references {
			parts, part, count = append(parts, part), nil, between
		}
		part, count = append(part, number), count+named[number]
	}
	parts = append(parts, part)
	var all []slice
	place := make([]int, len(s.Blobs))
	for _, part := range parts {
		cut := slice{objects: append(append([]int(nil), common...), part...)}
		sort.Ints(cut.objects)
		for number := range place {
			place[number] = -1
		}
		for k, number := range cut.objects {
			place[number] = k
		}
		for _, one := range references {
			if from, to := place[one.From], place[one.To]; from >= 0 && to >= 0 {
				cut.references = append(cut.references, Reference{from, to, one.Subject})
			}
		}
		all = append(all, cut)
	}
	return all, nil
}

// Plan is what a finished collection found dead.
type Plan struct {
	Dead    []*Blob // in their places, by number
	Freed   uint64
	Live    uint64
	Missing []Missing
	Damaged []Damage // told: those that live, and those that are held because they may be live
	Young   int      // dead, and held because they are younger than the grace
	// What was moved before.
	Return []*Blob // live by now: to be put back
	Moved  []*Blob // dead still
	// What is listed without a tag, and what would be freed besides if they were taken out.
	Untagged      int
	UntaggedFreed uint64

	live []bool
}

// Order is the schedule of a collection, and its settings.
type Order struct {
	Settings kullneyra.Settings
	Schedule []byte
}

// batch and cutoff of a collection that nobody sets otherwise.
const batch, cutoff = 64, 64

// RoundRobin is so many turns of the workers, one after the other, each asking the next.
func RoundRobin(workers uint32, turns int) Order {
	schedule := make([]byte, 0, 2*turns)
	for turn := 0; turn < turns; turn++ {
		schedule = append(schedule, byte(turn%int(workers)), byte((turn+1)%int(workers)))
	}
	return Order{kullneyra.Settings{Workers: workers, Batch: batch, Cutoff: cutoff}, schedule}
}

// Graph is a store, or a slice of it, as the proved reader read it, with what is kept as leases.
type Graph struct {
	graph  kullneyra.Graph
	sizes  []uint64
	starts []uint32
}

// Read makes the catalogue of the store, with leases on these digests, and lets the proved reader read it.
func (s *Store) Read(keep []digest.Digest) (*Graph, error) {
	numbers, err := s.kept(keep)
	if err != nil {
		return nil, err
	}
	return s.read(s.whole(), numbers)
}

func (s *Store) read(of slice, keep []int) (*Graph, error) {
	catalogue := s.catalogue(of, keep)
	refused := func(err error) error {
		return fmt.Errorf("a store of %d objects, %d references and %d kept: %w", len(of.objects), len(of.references), len(keep), err)
	}
	head, err := kullneyra.Header(catalogue)
	if err != nil {
		return nil, refused(err)
	}
	graph := &Graph{
		graph:  kullneyra.Graph{Offsets: make([]uint32, head.N+1), Targets: make([]uint32, head.M)},
		sizes:  make([]uint64, head.N),
		starts: make([]uint32, kullneyra.Starts),
	}
	store, err := kullneyra.Read(catalogue, graph.graph.Offsets, graph.graph.Targets, graph.sizes, graph.starts)
	if err != nil {
		return nil, refused(err)
	}
	graph.starts = graph.starts[:store.Starts]
	return graph, nil
}

// hops is how many references lead to each object, at least.
func (s *Graph) hops() ([]uint32, error) {
	n := len(s.sizes)
	words, err := kullneyra.HopWords(uint32(n))
	if err != nil {
		return nil, err
	}
	hops := make([]uint32, n)
	return hops, kullneyra.Hops(s.graph, s.starts, hops, make([]uint32, words))
}

// Rounds is how many rounds of so many workers finish every collection of the store: demand 3's bound, 7R + 4W + 2. R, the
// references that leave reachable objects, is told by the hops.
func (s *Graph) Rounds(workers uint32) (int, error) {
	hops, err := s.hops()
	if err != nil {
		return 0, err
	}
	reached := 0
	for object, hop := range hops {
		if hop != kullneyra.NoHops {
			reached += len(kullneyra.References(s.graph, uint32(object)))
		}
	}
	return 7*reached + 4*int(workers) + 2, nil
}

// Enough is the shortest round-robin order that the bound guarantees to finish.
func (s *Graph) Enough(workers uint32) (Order, error) {
	rounds, err := s.Rounds(workers)
	if err != nil {
		return Order{}, err
	}
	return RoundRobin(workers, int(workers)*rounds), nil
}

// SeedOrder is the order of as many rounds of cards drawn from a seed.
func (s *Graph) SeedOrder(seed kullneyra.Seed, workers uint32) (Order, error) {
	rounds, err := s.Rounds(workers)
	if err != nil {
		return Order{}, err
	}
	length, err := kullneyra.ScheduleLength(rounds, workers)
	if err != nil {
		return Order{}, err
	}
	schedule := make([]byte, length)
	if err := seed.DealSeed(rounds, workers, schedule); err != nil {
		return Order{}, err
	}
	return Order{kullneyra.Settings{Workers: workers, Batch: batch, Cutoff: cutoff}, schedule}, nil
}

// ErrUnfinished is no refusal: the schedule was too short.
var ErrUnfinished = errors.New("the schedule does not finish the collection, so nothing is known to be dead")

// alone are the settings of one worker, whom nobody asks: the fewest polls.
var alone = kullneyra.Settings{Workers: 1, Batch: kullneyra.MostSetting, Cutoff: kullneyra.MostSetting}

// Dead runs a whole collection of the proved marker, and the sweep, and answers the numbers of what is dead.
func (s *Graph) Dead() ([]uint32, error) {
	buffers := s.buffers(alone)
	marked, err := kullneyra.MarkAll(s.graph, s.starts, alone, buffers)
	return s.swept(buffers.Marks, marked, err)
}

// DeadBy does so by the turns of an order, which may be too few.
func (s *Graph) DeadBy(order Order) ([]uint32, error) {
	buffers := s.buffers(order.Settings)
	marked, err := kullneyra.Mark(s.graph, s.starts, order.Settings, order.Schedule, buffers)
	return s.swept(buffers.Marks, marked, err)
}

func (s *Graph) buffers(settings kullneyra.Settings) kullneyra.Buffers {
	n, workers := len(s.sizes), int(settings.Workers)
	return kullneyra.Buffers{
		Marks:   make([]byte, n),
		Work:    make([]uint32, kullneyra.Work(n, workers)),
		Tallies: make([]uint64, kullneyra.Tallies(workers)),
	}
}

// swept lists what a finished marking did not reach.
func (s *Graph) swept(marks []byte, marked kullneyra.Marked, err error) ([]uint32, error) {
	if err != nil {
		return nil, err
	}
	if !marked.Finished {
		return nil, ErrUnfinished
	}
	list := make([]uint32, len(s.sizes))
	swept, err := kullneyra.Sweep(marks, s.sizes, list)
	if err != nil {
		return nil, err
	}
	return list[:swept.Dead], nil
}

// mark says of each object whether it lives, by a collection for each slice.
func (s *Store) mark(ctx context.Context, references []Reference, keep []int, most limits) ([]bool, error) {
	parts, err := s.slices(references, keep, most)
	if err != nil {
		return nil, err
	}
	live, seen := make([]bool, len(s.Blobs)), make([]bool, len(s.Blobs))
	for _, part := range parts {
		if err := ctx.Err(); err != nil {
			return nil, err
		}
		store, err := s.read(part, part.places(keep))
		if err != nil {
			return nil, err
		}
		dead, err := store.Dead()
		if err != nil {
			return nil, err
		}
		is := make([]bool, len(part.objects))
		for _, number := range dead {
			is[number] = true
		}
		for k, number := range part.objects {
			if seen[number] && live[number] == is[k] {
				return nil, fmt.Errorf("%s lives in one slice and is dead in another", s.Blobs[number].Digest)
			}
			live[number], seen[number] = !is[k], true
		}
	}
	return live, nil
}

// Settings of a plan.
type Settings struct {
	Keep         []digest.Digest // held as a download in progress, with all that they refer to
	Grace        time.Duration   // what is younger is held, with all that it refers to
	AllowMissing bool            // a manifest that is listed may be absent
	DropDamaged  bool            // what is damaged is not held for that
	Untagged     bool            // what is listed without a tag holds nothing
}

// Plan finds what is dead.
func (s *Store) Plan(ctx context.Context, settings Settings) (*Plan, error) {
	keep, err := s.kept(settings.Keep)
	if err != nil {
		return nil, err
	}
	if err := s.complete(settings); err != nil {
		return nil, err
	}
	references := s.References
	if settings.DropDamaged {
		references = s.withoutDamaged(references)
	}
	if settings.Untagged {
		if references, err = s.onlyTagged(references); err != nil {
			return nil, err
		}
	}
	// First what is held from outside: damage there is a fault.
	live, err := s.mark(ctx, references, keep, graphLimits)
	if err != nil {
		return nil, err
	}
	plan := &Plan{}
	for number := range s.Blobs {
		blob := &s.Blobs[number]
		if damage := blob.damage; damage != nil {
			if live[number] && damage.content {
				return nil, &Fault{blob.Digest, fmt.Errorf("is live, and damaged: %w", damage.Err)}
			}
			if live[number] || blob.Moved == "" {
				plan.Damaged = append(plan.Damaged, *damage)
			}
		}
	}
	// Then what is held besides.
	held := s.besides(live, settings)
	plan.Young = held.young
	if len(held.objects) > 0 {
		if live, err = s.mark(ctx, held.with(references), keep, graphLimits); err != nil {
			return nil, err
		}
	}
	plan.live = live
	count := 0
	for number := range live {
		if !live[number] {
			count++
		}
	}
	plan.Dead = make([]*Blob, 0, count)
	unlinked := map[int]bool{}
	for _, link := range s.links {
		if link.moved != "" && !link.copy && link.object > 0 {
			unlinked[link.object] = true
		}
	}
	for number := range s.Blobs {
		blob := &s.Blobs[number]
		switch {
		case live[number]:
			plan.Live++
			if blob.Moved != "" || unlinked[number] {
				plan.Return = append(plan.Return, blob)
			}
		case blob.absent:
		case blob.Moved != "":
			plan.Moved = append(plan.Moved, blob)
		default:
			plan.Dead = append(plan.Dead, blob)
			plan.Freed += uint64(blob.Size)
		}
	}
	for k := range s.copies {
		plan.Moved = append(plan.Moved, &s.copies[k])
	}
	s.tellMissing(plan)
	if plan.Untagged = s.top.untagged; plan.Untagged > 0 && !settings.Untagged {
		return plan, s.weighUntagged(ctx, plan, references, held, keep)
	}
	return plan, nil
}

// complete says whether all that is listed is there.
func (s *Store) complete(settings Settings) error {
	for _, one := range s.top.entries {
		if settings.Untagged && one.tag == "" {
			continue
		}
		if _, there := s.Number(one.Digest); !there && len(one.Data) == 0 && !settings.AllowMissing {
			return &Fault{one.Digest, fmt.Errorf("is listed in %s and is not there, so what it refers to is not known (--allow-missing)", s.Top)}
		}
	}
	return nil
}

// withoutDamaged leaves out the subjects that damaged texts name.
func (s *Store) withoutDamaged(all []Reference) []Reference {
	var kept []Reference
	for _, one := range all {
		if !one.Subject || s.Blobs[one.From].damage == nil {
			kept = append(kept, one)
		}
	}
	return kept
}

// onlyTagged puts what is listed under tags in the place of all that is listed.
func (s *Store) onlyTagged(all []Reference) ([]Reference, error) {
	if s.top.untagged == 0 {
		return all, nil
	}
	if s.top.untagged == len(s.top.entries) {
		return nil, &Fault{Err: fmt.Errorf("none of the %s has a tag: without them nothing would be left", s.Entry)}
	}
	f := &follower{Store: &Store{Path: s.Path, Blobs: s.Blobs, holders: map[digest.Digest][]int{}}, groups: s.groups()}
	c := &content{kind: Index}
	if !s.top.lines {
		if c = parse(s.top.tagged); c == nil {
			return nil, &Fault{Err: fmt.Errorf("%s without its untagged entries is no index", s.Top)}
		}
	}
	if err := f.take(0, s.top.tagged, c); err != nil {
		return nil, err
	}
	if err := f.scan(); err != nil {
		return nil, err
	}
	references := append([]Reference(nil), f.References...)
	for _, one := range all {
		// What names a subject that an entry holds in its data is held as before.
		if one.From != 0 {
			references = append(references, one)
		}
	}
	return distinct(references), nil
}

// weighUntagged tells what the entries without a tag hold alone.
func (s *Store) weighUntagged(ctx context.Context, plan *Plan, references []Reference, held besides, keep []int) error {
	if s.top.untagged == len(s.top.entries) {
		return nil
	}
	tagged, err := s.onlyTagged(references)
	if err != nil {
		return err
	}
	live, err := s.mark(ctx, held.with(tagged), keep, graphLimits)
	if err != nil {
		return err
	}
	for number := range s.Blobs {
		if plan.live[number] && !live[number] && s.Blobs[number].Moved == "" {
			plan.UntaggedFreed += uint64(s.Blobs[number].Size)
		}
	}
	return nil
}

// besides are the objects that are held though nothing names them.
type besides struct {
	objects []int
	young   int
}

// with is these references, and one from outside to each object that is held besides.
func (b besides) with(references []Reference) []Reference {
	all := append([]Reference(nil), references...)
	for _, number := range b.objects {
		all = append(all, Reference{From: 0, To: number})
	}
	return distinct(all)
}

func (s *Store) besides(live []bool, settings Settings) besides {
	var held besides
	for number := 1; number < len(s.Blobs); number++ {
		blob := &s.Blobs[number]
		if live[number] || blob.Moved != "" || blob.absent {
			continue
		}
		young := s.young(number, settings.Grace)
		if young {
			held.young++
		}
		if young || blob.link || blob.foreign || blob.damage != nil && !settings.DropDamaged {
			held.objects = append(held.objects, number)
		}
	}
	return held
}

// young says whether a blob, or what hangs on it, is younger than the grace: a push may be about to name it.
func (s *Store) young(number int, grace time.Duration) bool {
	if grace <= 0 {
		return false
	}
	since := s.began.UnixNano() - int64(grace)
	if s.Blobs[number].changed > since {
		return true
	}
	for _, link := range s.linksOf(number) {
		if link.moved != "" {
			continue
		}
		if s.busy[link.group] > since {
			return true
		}
		info, err := os.Lstat(s.tree.at(link.at.path() + "/" + linkFile))
		if err == nil && info.ModTime().UnixNano() > since {
			return true
		}
	}
	return false
}

// tellMissing lists what live objects refer to and what is not there.
func (s *Store) tellMissing(plan *Plan) {
	told := map[digest.Digest]bool{}
	tell := func(one Missing) {
		if !told[one.Digest] && plan.live[one.by] {
			told[one.Digest] = true
			plan.Missing = append(plan.Missing, one)
		}
	}
	for _, one := range s.missing {
		tell(one)
	}
	for _, one := range s.References {
		if to := &s.Blobs[one.To]; to.absent && !one.Subject {
			tell(Missing{Digest: to.Digest, By: s.Blobs[one.From].Digest, by: one.From})
		}
	}
	sort.SliceStable(plan.Missing, func(a, b int) bool { return plan.Missing[a].Digest < plan.Missing[b].Digest })
}

// Why is the chain of names that leads from outside, or from what is kept, to an object: digests, what holds from outside as an empty
// one. It is empty for what is dead.
func (s *Store) Why(ctx context.Context, name digest.Digest, settings Settings) ([]digest.Digest, error) {
	target, there := s.Number(name)
	if !there {
		return nil, &Fault{name, errors.New("is not there")}
	}
	keep, err := s.kept(settings.Keep)
	if err != nil {
		return nil, err
	}
	parts, err := s.slices(s.References, append(keep, target), graphLimits)
	if err != nil {
		return nil, err
	}
	part := parts[0]
	store, err := s.read(part, part.places(keep))
	if err != nil {
		return nil, err
	}
	hops, err := store.hops()
	if err != nil {
		return nil, err
	}
	at := sort.SearchInts(part.objects, target)
	if hops[at] == kullneyra.NoHops {
		return nil, nil
	}
	chain := []digest.Digest{name}
	for hops[at] > 0 {
		for from, hop := range hops {
			if hop+1 == hops[at] && refers(store.graph, from, at) {
				at = from
				break
			}
		}
		chain = append([]digest.Digest{s.Blobs[part.objects[at]].Digest}, chain...)
	}
	return chain, nil
}

// Besides says why a blob to which no chain of names leads is held all the same; it is empty if nothing of it says so.
func (s *Store) Besides(name digest.Digest, settings Settings) string {
	number, there := s.Number(name)
	if !there {
		return ""
	}
	switch blob := &s.Blobs[number]; {
	case blob.Moved != "":
		return ""
	case blob.link:
		return "it is a link"
	case blob.foreign:
		return "its algorithm is not known"
	case blob.damage != nil && !settings.DropDamaged:
		return "it is damaged, and may be a signature"
	case s.young(number, settings.Grace):
		return "it, or what links it, is younger than " + settings.Grace.String()
	}
	return ""
}

func refers(g kullneyra.Graph, from, to int) bool {
	for _, one := range kullneyra.References(g, uint32(from)) {
		if int(one) == to {
			return true
		}
	}
	return false
}
