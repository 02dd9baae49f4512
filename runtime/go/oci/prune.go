package oci

import (
	"bytes"
	"context"
	"errors"
	"fmt"
	"io/fs"
	"os"
	"path/filepath"
	"sort"
	"syscall"
	"time"

	digest "github.com/opencontainers/go-digest"
)

const (
	// ownFolder is a folder of the store that no reader looks at. Each prune moves what is dead into a folder of its own in it,
	// which has the time as its name and is laid out as the store is.
	ownFolder   = ".kullneyra-oci"
	movedFolder = ownFolder + "/dead"
	timeFormat  = "20060102T150405.000000000Z"
)

var (
	// ErrLocked says that another prune is at work.
	ErrLocked = errors.New("another prune of this store is at work")
	// ErrShared says that blobs lie behind a link or on another device, so that others may look at them too.
	ErrShared = errors.New("nothing is moved")
	// ErrChanged says that the store changed so that it cannot be read any more, and that all was put back.
	ErrChanged = errors.New("changed meanwhile, and all was put back")
	// ErrPartly says that some files could not be moved or deleted.
	ErrPartly = errors.New("partly done")

	errStays  = errors.New("what refers to it could not be moved")
	errLinked = errors.New("a link of it could not be moved")
)

// The calls that change something; tests let them fail.
var (
	renameFile = (*tree).rename
	removeFile = (*tree).remove
)

// movedFolders are those in which something was moved before, by time.
func (s *Store) movedFolders() ([]string, error) {
	names, err := s.tree.names(movedFolder)
	if err != nil {
		return nil, &Fault{Err: err}
	}
	var all []string
	for _, name := range names {
		info, err := os.Lstat(s.tree.at(movedFolder + "/" + name))
		if _, wrong := time.Parse(timeFormat, name); wrong != nil || err != nil || !info.IsDir() {
			s.Stray = append(s.Stray, movedFolder+"/"+name)
			continue
		}
		all = append(all, name)
	}
	sort.Strings(all)
	return all, nil
}

// Lock keeps a second prune out until the function that it answers is called. The folder itself is locked, so that a full disk is
// no hindrance, and the lock goes with the process.
func Lock(path string) (func(), error) {
	folder, err := os.Open(path)
	if err != nil {
		return nil, err
	}
	for err = syscall.EINTR; err == syscall.EINTR; {
		err = syscall.Flock(int(folder.Fd()), syscall.LOCK_EX|syscall.LOCK_NB)
	}
	if err == nil {
		return func() { folder.Close() }, nil
	}
	folder.Close()
	if err == syscall.EWOULDBLOCK {
		return nil, ErrLocked
	}
	return nil, &os.PathError{Op: "lock", Path: path, Err: err}
}

// What happens to a blob.
const (
	Moved   = "moved"
	PutBack = "put back"
	Deleted = "deleted"
)

// Event is what happened, or could not be done.
type Event struct {
	What string
	Blob *Blob
	Err  error
}

// PruneSettings are those of a plan, and how long what was moved is kept.
type PruneSettings struct {
	Options
	Settings
	Retention time.Duration
	Tags      []string // held as Keep is
	Planned   func(*Store, *Plan) error
	Log       func(Event) // called as things happen
}

// Result is what a prune did.
type Result struct {
	Store   *Store
	Plan    *Plan
	Moved   []*Blob
	PutBack []*Blob
	Deleted []*Blob
	Failed  []Event
	Links   int // that were moved, put back or deleted with what they hang on
	Listed  int // entries that were taken out of what lists them
}

// done says whether anything was done.
func (r *Result) done() bool { return len(r.Moved)+len(r.PutBack)+len(r.Deleted)+r.Links+r.Listed > 0 }

// pruner is a prune at work.
type pruner struct {
	*Result
	settings PruneSettings
	tree     *tree
	now      *Store           // as it was read last
	at       string           // the folder into which it moves
	made     map[string]error // folders that were made
}

// Prune moves what is dead into a folder of the store that no reader looks at; looks at the store again, and puts back what is
// named by then; and deletes what has lain there for the retention. What is named by now is put back first.
func Prune(ctx context.Context, path string, s PruneSettings) (*Result, error) {
	return work(ctx, path, s, (*pruner).prune)
}

// Restore puts back what was moved and is named by now. It does nothing else.
func Restore(ctx context.Context, path string, s PruneSettings) (*Result, error) {
	s.AllowMissing = true
	return work(ctx, path, s, func(p *pruner, ctx context.Context) error {
		p.putBack(p.Store, p.Plan.Return)
		return nil
	})
}

// work takes the lock, reads and plans, and does what is to be done.
func work(ctx context.Context, path string, s PruneSettings, do func(*pruner, context.Context) error) (*Result, error) {
	unlock, err := Lock(path)
	if err != nil {
		return nil, err
	}
	defer unlock()
	p := &pruner{Result: &Result{}, settings: s, tree: newTree(path), at: time.Now().UTC().Format(timeFormat), made: map[string]error{}}
	defer p.tree.close()
	if p.Store, p.Plan, err = p.plan(ctx); err != nil {
		return p.Result, err
	}
	p.now = p.Store
	if p.Store.Shared != "" {
		return p.Result, fmt.Errorf("%w: %s", ErrShared, p.Store.Shared)
	}
	if s.Planned != nil {
		if err := s.Planned(p.Store, p.Plan); err != nil {
			return p.Result, err
		}
	}
	err = do(p, ctx)
	p.tidy()
	switch {
	case err != nil && p.done():
		return p.Result, fmt.Errorf("%w: %v", ErrPartly, err)
	case err != nil:
		return p.Result, err
	case len(p.Failed) > 0 && p.done():
		return p.Result, fmt.Errorf("%w: %d files could not be moved or deleted, the first: %v", ErrPartly, len(p.Failed), p.Failed[0].Err)
	case len(p.Failed) > 0:
		return p.Result, fmt.Errorf("%d files could not be moved or deleted, the first: %w", len(p.Failed), p.Failed[0].Err)
	}
	return p.Result, nil
}

// plan reads the store and finds what is dead.
func (p *pruner) plan(ctx context.Context) (*Store, *Plan, error) {
	s, err := Open(ctx, p.tree.path, p.settings.Options)
	if err != nil {
		return nil, nil, err
	}
	s.tree = p.tree
	settings, err := s.WithTags(p.settings.Settings, p.settings.Tags)
	if err != nil {
		return s, nil, err
	}
	plan, err := s.Plan(ctx, settings)
	return s, plan, err
}

// WithTags keeps besides what is listed under these tags.
func (s *Store) WithTags(settings Settings, tags []string) (Settings, error) {
	for _, tag := range tags {
		found := s.top.tags(tag)
		if len(found) == 0 {
			return settings, &Fault{Err: fmt.Errorf("%q is to be kept: %s has no such tag, and it is no digest", tag, s.Top)}
		}
		settings.Keep = append(settings.Keep[:len(settings.Keep):len(settings.Keep)], found...)
	}
	return settings, nil
}

func (p *pruner) log(what string, blob *Blob, err error) {
	if err != nil {
		p.Failed = append(p.Failed, Event{what, blob, err})
	}
	if p.settings.Log != nil {
		p.settings.Log(Event{what, blob, err})
	}
}

func (p *pruner) prune(ctx context.Context) error {
	p.putBack(p.Store, p.Plan.Return)
	if p.settings.Untagged && p.Store.top.untagged > 0 {
		listed, err := p.Store.kind.untag(p.tree, p.Store.top)
		if err != nil {
			return err
		}
		if p.Listed = listed; listed > 0 {
			p.Store.top.text = p.Store.top.tagged
		}
	}
	links := p.Links
	p.move(ctx)
	// Again, whatever the context says: what was moved is looked at once more.
	plan, gone := p.Plan, p.Plan.Moved
	if changed, err := p.Store.changed(); err != nil || changed {
		var now *Store
		if err == nil {
			// An entry without a tag that has come meanwhile counts.
			p.settings.Untagged, p.settings.Verify = false, false
			now, plan, err = p.plan(context.Background())
		}
		if err != nil {
			before := p.PutBack
			if p.putBack(p.Store, p.Plan.Dead); len(p.Failed) == 0 {
				p.Moved, p.PutBack, p.Links = nil, before, links
			}
			return fmt.Errorf("%w: %v", ErrChanged, err)
		}
		p.now, gone = now, plan.Moved
		p.putBack(now, plan.Return)
	} else {
		gone = append(gone[:len(gone):len(gone)], p.Moved...)
	}
	if err := ctx.Err(); err != nil {
		return err
	}
	p.delete(ctx, plan, gone)
	return nil
}

// inOrder are these objects so that what refers goes before what it refers to.
func (s *Store) inOrder(objects []int) []int {
	const taken = -1
	waits := make([]int32, len(s.Blobs)) // one more than those among the objects that refer to it and have not gone yet
	for _, object := range objects {
		waits[object] = 1
	}
	for _, object := range objects {
		s.referred(object, func(to int) {
			if waits[to] > 0 {
				waits[to]++
			}
		})
	}
	out := make([]int, 0, len(objects))
	take := func(object int) {
		waits[object] = taken
		out = append(out, object)
	}
	for _, object := range objects {
		if waits[object] == 1 {
			take(object)
		}
	}
	for at := 0; at < len(out); at++ {
		s.referred(out[at], func(to int) {
			if waits[to] > 1 {
				if waits[to]--; waits[to] == 1 {
					take(to)
				}
			}
		})
	}
	// Only what is damaged can refer in a circle.
	for _, object := range objects {
		if waits[object] > 0 {
			take(object)
		}
	}
	return out
}

// numbers are those of blobs of the store.
func (s *Store) numbers(all []*Blob) []int {
	out := make([]int, len(all))
	for k, blob := range all {
		out[k] = s.find(blob.Digest)
	}
	return out
}

// folder makes a folder in the tree, once.
func (p *pruner) folder(path string) error {
	err, tried := p.made[path]
	if !tried {
		err = os.MkdirAll(p.tree.at(path), 0o755)
		p.made[path] = err
	}
	return err
}

// rename moves a file or a folder, into a folder that is made for it.
func (p *pruner) rename(from, to place) error {
	if err := p.folder(to.parent()); err != nil {
		return err
	}
	return renameFile(p.tree, from, to)
}

// move takes what is dead out of the sight of readers: what refers before what it refers to, and of each first what hangs on
// it. So whatever can be found has all that it refers to, wherever this ends. What cannot be moved keeps what it refers to.
func (p *pruner) move(ctx context.Context) {
	s := p.Store
	stays := map[int]bool{}
	for _, number := range s.inOrder(s.numbers(p.Plan.Dead)) {
		if ctx.Err() != nil {
			return
		}
		blob, err := &s.Blobs[number], error(nil)
		switch {
		case number == 0 || blob.link || blob.foreign:
			err = errors.New("is never moved")
		case stays[number]:
			err = errStays
		default:
			err = p.moveOne(number)
		}
		if err == nil {
			p.Moved = append(p.Moved, blob)
		} else {
			s.referred(number, func(to int) { stays[to] = true })
		}
		p.log(Moved, blob, err)
	}
}

// referred goes over what an object refers to.
func (s *Store) referred(object int, do func(int)) {
	if !s.Blobs[object].text && !s.Blobs[object].link {
		return
	}
	from := sort.Search(len(s.References), func(k int) bool { return s.References[k].From >= object })
	for ; from < len(s.References) && s.References[from].From == object; from++ {
		if one := s.References[from]; !one.Subject && one.To != object {
			do(one.To)
		}
	}
}

// moveOne moves the links of a blob, and then the blob.
func (p *pruner) moveOne(number int) error {
	s, blob := p.Store, &p.Store.Blobs[number]
	links := s.linksOf(number)
	for k := range links {
		if links[k].moved != "" {
			continue
		}
		if err := p.rename(links[k].at, s.within(p.at, links[k].at)); err != nil {
			return fmt.Errorf("%w: %v", errLinked, err)
		}
		links[k].moved = p.at
		p.Links++
	}
	from, _ := s.kind.place(blob.Digest)
	if err := p.rename(from, s.within(p.at, from)); err != nil {
		return err
	}
	blob.Moved = p.at
	return nil
}

// putBack moves blobs back, what is referred to before what refers, and of each the blob before what hangs on it.
func (p *pruner) putBack(s *Store, all []*Blob) {
	order := s.inOrder(s.numbers(all))
	for k := len(order) - 1; k >= 0; k-- {
		blob := &s.Blobs[order[k]]
		if blob.Moved != "" {
			back, err := p.back(s, blob.Moved, blob.Digest)
			if err == nil {
				blob.Moved = ""
			}
			if back {
				p.PutBack = append(p.PutBack, blob)
			}
			if back || err != nil {
				p.log(PutBack, blob, err)
			}
		}
		links := s.linksOf(order[k])
		for k := range links {
			if links[k].moved == "" || links[k].copy {
				continue
			}
			back, err := p.backTo(s.within(links[k].moved, links[k].at), links[k].at, linkFile)
			if err == nil {
				links[k].moved = ""
			} else {
				p.log(PutBack, blob, err)
			}
			if back {
				p.Links++
			}
		}
	}
}

// back puts a blob back, and says whether it did: whoever wrote it anew meanwhile is not overwritten.
func (p *pruner) back(s *Store, moved string, name digest.Digest) (bool, error) {
	at, file := s.kind.place(name)
	return p.backTo(s.within(moved, at), at, file)
}

func (p *pruner) backTo(from, to place, file string) (bool, error) {
	if _, err := os.Lstat(filepath.Join(p.tree.at(to.path()), file)); err == nil {
		return false, nil
	}
	if err := p.rename(from, to); err != nil {
		return false, err
	}
	return true, nil
}

// delete removes what was moved so long ago, and what hung on what is dead.
func (p *pruner) delete(ctx context.Context, plan *Plan, all []*Blob) {
	s := p.now
	for _, blob := range all {
		at, file := s.kind.place(blob.Digest)
		at = s.within(blob.Moved, at)
		if ctx.Err() != nil || blob.Moved == "" || !p.old(blob.Moved, at) {
			continue
		}
		err := p.remove(at, file)
		if err == nil {
			blob.gone = true
			p.Deleted = append(p.Deleted, blob)
		}
		p.log(Deleted, blob, err)
	}
	for k := range s.links {
		link := &s.links[k]
		at := s.within(link.moved, link.at)
		live := link.object > 0 && plan.live[link.object] && !link.copy
		if ctx.Err() != nil || link.moved == "" || live || !p.old(link.moved, at) {
			continue
		}
		if err := p.remove(at, linkFile); err != nil {
			p.log(Deleted, &Blob{Digest: link.name}, err)
			continue
		}
		link.gone = true
		p.Links++
	}
}

// remove deletes a file, or a folder that has this one file in it.
func (p *pruner) remove(at place, file string) error {
	if file == "" {
		return removeFile(p.tree, at)
	}
	err := removeFile(p.tree, place{at.folder, at.name + "/" + file})
	if err != nil && !errors.Is(err, fs.ErrNotExist) {
		return err
	}
	return p.tree.removeFolder(at)
}

// old says whether something has lain among what was moved for the retention, by the name of its folder and by the time at which
// its own name was changed, when the store was read.
func (p *pruner) old(moved string, place place) bool {
	if p.settings.Retention <= 0 {
		return true
	}
	at, err := time.Parse(timeFormat, moved)
	if err != nil || p.Store.began.Sub(at) < p.settings.Retention {
		return false
	}
	var stat syscall.Stat_t
	if err := syscall.Lstat(p.tree.at(place.path()), &stat); err != nil {
		return false
	}
	if named := time.Unix(stat.Ctim.Unix()); named.After(at) {
		at = named
	}
	return p.Store.began.Sub(at) >= p.settings.Retention
}

// tidy removes the folders of what was moved that are empty.
func (p *pruner) tidy() {
	used := map[string]bool{}
	s := p.now
	for _, all := range [][]Blob{s.Blobs, s.copies} {
		for k := range all {
			if all[k].Moved != "" && !all[k].gone {
				used[all[k].Moved] = true
			}
		}
	}
	folders, _ := p.tree.names(movedFolder)
	for _, folder := range folders {
		if !used[folder] {
			removeEmpty(p.tree.at(movedFolder + "/" + folder))
		}
	}
	syscall.Rmdir(p.tree.at(movedFolder))
	syscall.Rmdir(p.tree.at(ownFolder))
}

// removeEmpty removes a folder and those in it, as far as they hold no file.
func removeEmpty(path string) {
	if syscall.Rmdir(path) == nil {
		return
	}
	entries, _ := os.ReadDir(path)
	for _, one := range entries {
		if one.IsDir() {
			removeEmpty(filepath.Join(path, one.Name()))
		}
	}
	syscall.Rmdir(path)
}

// changed says whether what holds from outside, or the names of the blobs, are others than they were, apart from what was moved;
// or whether something hangs by now on what was moved.
func (s *Store) changed() (bool, error) {
	now := &listing{before: s.top}
	if err := s.kind.read(s.tree, "", now); err != nil {
		return false, err
	}
	text := s.top.text
	if s.top.lines {
		text = s.top.linesOf(func(one *descriptor) bool {
			number := s.find(one.Digest)
			return one.tag == "" && number > 0 && s.Blobs[number].Moved != ""
		})
	}
	if !bytes.Equal(now.top.text, text) || now.shared != "" || shared(s.tree, append(s.kind.folders(s.tree), ownFolder, movedFolder)) != "" {
		return true, nil
	}
	// What is to be there: each name once, and nothing else. What was moved has its mark.
	due, count := make([]bool, len(s.Blobs)), 0
	for number := 1; number < len(s.Blobs); number++ {
		if s.Blobs[number].Moved == "" {
			due[number] = true
			count++
		}
	}
	for _, name := range now.names {
		number := s.find(name)
		if number == 0 || !due[number] || s.Blobs[number].link != now.linked[name] {
			return true, nil
		}
		due[number] = false
		count--
	}
	for _, link := range now.links {
		if number := s.find(link.name); number > 0 && s.Blobs[number].Moved != "" {
			return true, nil
		}
	}
	return count > 0, nil
}
