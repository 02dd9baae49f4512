// Command kullneyra-oci finds what nothing holds in an OCI image layout or in the folder of a registry, with the proved marker, and moves it away.
package main

import (
	"bufio"
	"context"
	"errors"
	"fmt"
	"io"
	"os"
	"os/signal"
	"runtime/debug"
	"strconv"
	"strings"
	"syscall"
	"time"
	"unsafe"

	"github.com/docker/go-units"
	digest "github.com/opencontainers/go-digest"
	"github.com/spf13/cobra"
	"kullneyra.example/go/kullneyra"
	"kullneyra.example/go/oci"
)

// version is what --version says.
const version = kullneyra.Version

// Exit statuses.
const (
	statusDone    = 0
	statusNothing = 1 // nothing was done
	statusUsage   = 2
	statusPartly  = 3 // some was done
)

// errUsage is a fault of the command line.
var errUsage = errors.New("usage")

func main() {
	// Most of the memory is lists that stay: less is spent on what may go.
	debug.SetGCPercent(80)
	ctx, stop := signal.NotifyContext(context.Background(), os.Interrupt, syscall.SIGTERM)
	defer stop()
	var out io.Writer = os.Stdout
	buffer := bufio.NewWriterSize(os.Stdout, 1<<16)
	if !terminal(os.Stdout) {
		out = buffer
	}
	status := run(ctx, os.Args[1:], out, os.Stderr)
	if err := buffer.Flush(); err != nil {
		fmt.Fprintln(os.Stderr, "kullneyra-oci: the answer could not be written:", err)
		if status == statusDone {
			status = statusPartly
		}
	}
	stop()
	os.Exit(status)
}

// terminal says whether someone looks on.
func terminal(file *os.File) bool {
	var settings syscall.Termios
	_, _, number := syscall.Syscall(syscall.SYS_IOCTL, file.Fd(), syscall.TCGETS, uintptr(unsafe.Pointer(&settings)))
	return number == 0
}

// run is the command; it answers the exit status.
func run(ctx context.Context, words []string, out, said io.Writer) int {
	c := &command{out: out, said: said}
	root := c.root()
	root.SetArgs(words)
	root.SetOut(out)
	root.SetErr(said)
	ran, err := root.ExecuteContextC(ctx)
	if err == nil {
		return statusDone
	}
	status := statusOf(err, c.began)
	if c.machine || asksJSON(words) {
		c.printFailure(ran.Name(), err, status)
	}
	fmt.Fprintln(said, "kullneyra-oci:", plain(err.Error()))
	if status == statusUsage {
		fmt.Fprintf(said, "usage: %s\n", ran.UseLine())
	}
	return status
}

// asksJSON says whether --json stands among the words: a wrong one before it keeps it from being read as an option.
func asksJSON(words []string) bool {
	for _, word := range words {
		switch word {
		case "--":
			return false
		case "--json", "--json=true":
			return true
		}
	}
	return false
}

// statusOf is the exit status: what goes wrong before the work begins is a fault of the command line.
func statusOf(err error, began bool) int {
	switch {
	case !began || errors.Is(err, errUsage):
		return statusUsage
	case errors.Is(err, oci.ErrPartly):
		return statusPartly
	}
	return statusNothing
}

// plain is a text with its control characters, and whatever is no letter of a line, escaped.
func plain(text string) string {
	for _, letter := range text {
		if !strconv.IsPrint(letter) {
			quoted := strconv.Quote(text)
			return strings.ReplaceAll(quoted[1:len(quoted)-1], `\"`, `"`)
		}
	}
	return text
}

// command is what the options say, and where to print.
type command struct {
	out, said io.Writer
	began     bool // the command line is right

	machine, verify, dry              bool
	missing, damaged, untagged, quiet bool
	keep                              []string
	grace, retention                  time.Duration
	result                            *answer
	scratch                           []byte
}

func (c *command) root() *cobra.Command {
	root := &cobra.Command{
		Use:   "kullneyra-oci",
		Short: "Finds what nothing holds in an OCI image layout or in the folder of a registry, with a proved marker, and moves it away",
		Long: `Finds what nothing holds in an OCI image layout or in the folder of a registry, with a proved marker, and moves it away.

Exit status: 0 done; 1 nothing was done; 2 wrong usage; 3 partly done. Standard error tells why.`,
		Version:       version,
		SilenceErrors: true,
		SilenceUsage:  true,
		Args: func(_ *cobra.Command, words []string) error {
			if len(words) > 0 {
				return fmt.Errorf("%w: no command %q", errUsage, words[0])
			}
			return nil
		},
		RunE: func(*cobra.Command, []string) error { return fmt.Errorf("%w: which command?", errUsage) },
	}
	root.AddCommand(c.planCommand(), c.pruneCommand(), c.restoreCommand(), c.whyCommand(), c.catalogueCommand(), c.manCommand())
	return root
}

// exactly takes so many words.
func exactly(words ...string) cobra.PositionalArgs {
	return func(_ *cobra.Command, given []string) error {
		if len(given) > len(words) {
			return fmt.Errorf("%q is one word too many", given[len(words)])
		}
		if len(given) < len(words) {
			return fmt.Errorf("%s is missing", words[len(given)])
		}
		return nil
	}
}

// held are the options that say what is held.
func (c *command) held(one *cobra.Command) {
	flags := one.Flags()
	flags.BoolVar(&c.machine, "json", false, "print for a machine")
	flags.BoolVar(&c.verify, "verify", false, "hash every blob first")
	flags.StringArrayVar(&c.keep, "keep", nil, "hold this digest or tag (REPOSITORY:TAG of a registry) and what it refers to, as a download in progress (up to 256)")
	flags.DurationVar(&c.grace, "grace", time.Hour, "hold what is younger, and what it refers to")
	flags.BoolVar(&c.missing, "allow-missing", false, "go on where a manifest that a tag or index.json names is absent")
	flags.BoolVar(&c.damaged, "drop-damaged", false, "do not hold what is damaged and may be a signature")
	flags.BoolVar(&c.untagged, "untagged", false, "do not hold what has no tag; takes such entries out of index.json")
}

func (c *command) planCommand() *cobra.Command {
	one := &cobra.Command{
		Use:   "plan STORE",
		Short: "Lists what nothing holds: neither a tag, nor an index, nor a subject that lives, nor --keep",
		Args:  exactly("STORE"),
		RunE: func(one *cobra.Command, words []string) error {
			c.began = true
			return c.plan(one.Context(), words[0])
		},
	}
	c.held(one)
	return one
}

func (c *command) pruneCommand() *cobra.Command {
	one := &cobra.Command{
		Use:   "prune STORE",
		Short: "Moves what nothing holds out of the sight of readers, and deletes what was moved long ago",
		Long: `Moves what nothing holds into a folder of the store that no reader looks at, looks at the store again, and puts back what
is named by then. What has lain there for --retention is deleted. What is named meanwhile is put back first.`,
		Args: exactly("STORE"),
		RunE: func(one *cobra.Command, words []string) error {
			c.began = true
			if c.dry {
				return c.plan(one.Context(), words[0])
			}
			return c.work(one.Context(), "prune", words[0], oci.Prune)
		},
	}
	c.held(one)
	one.Flags().BoolVar(&c.dry, "dry-run", false, "change nothing: as plan")
	one.Flags().DurationVar(&c.retention, "retention", 24*time.Hour, "delete what was moved so long ago; 0 only where nobody writes")
	return one
}

func (c *command) restoreCommand() *cobra.Command {
	one := &cobra.Command{
		Use:   "restore STORE",
		Short: "Puts back what was moved and is named by now, and does nothing else",
		Args:  exactly("STORE"),
		RunE: func(one *cobra.Command, words []string) error {
			c.began = true
			return c.work(one.Context(), "restore", words[0], oci.Restore)
		},
	}
	flags := one.Flags()
	flags.BoolVar(&c.machine, "json", false, "print for a machine")
	flags.StringArrayVar(&c.keep, "keep", nil, "put back this digest or tag, too, and what it refers to")
	return one
}

func (c *command) whyCommand() *cobra.Command {
	one := &cobra.Command{
		Use:   "why DIGEST STORE",
		Short: "Tells the chain of names from a tag to a blob, or that there is none",
		Args:  exactly("DIGEST", "STORE"),
		RunE: func(one *cobra.Command, words []string) error {
			name, err := digest.Parse(words[0])
			if err != nil {
				return fmt.Errorf("%w: %q: %v", errUsage, words[0], err)
			}
			c.began = true
			return c.why(one.Context(), name, words[1])
		},
	}
	c.held(one)
	return one
}

// settings are what the options say.
func (c *command) settings() (oci.Settings, []string) {
	s := oci.Settings{Grace: c.grace, AllowMissing: c.missing, DropDamaged: c.damaged, Untagged: c.untagged}
	var tags []string
	for _, word := range c.keep {
		if name, err := digest.Parse(word); err == nil {
			s.Keep = append(s.Keep, name)
		} else {
			tags = append(tags, word)
		}
	}
	return s, tags
}

// options are those of reading, with progress on a terminal.
func (c *command) options() oci.Options {
	o := oci.Options{Verify: c.verify}
	if file, is := c.said.(*os.File); is && c.verify && terminal(file) {
		last := time.Time{}
		o.Progress = func(done, all int64) {
			if now := time.Now(); done == all || now.Sub(last) > 200*time.Millisecond {
				last = now
				fmt.Fprintf(c.said, "\r%s of %s hashed ", size(done), size(all))
			}
			if done == all {
				fmt.Fprintln(c.said)
			}
		}
	}
	return o
}

func size(bytes int64) string { return units.BytesSize(float64(bytes)) }

func (c *command) plan(ctx context.Context, path string) error {
	store, err := oci.Open(ctx, path, c.options())
	if err != nil {
		return err
	}
	s, tags := c.settings()
	if s, err = store.WithTags(s, tags); err != nil {
		return err
	}
	plan, err := store.Plan(ctx, s)
	if err != nil {
		return err
	}
	c.tell(store, plan)
	if c.machine {
		return c.print(answerOf("plan", store, plan, nil))
	}
	return c.table(plan, "would be freed")
}

// work prunes or restores.
func (c *command) work(ctx context.Context, name, path string, do func(context.Context, string, oci.PruneSettings) (*oci.Result, error)) error {
	s, tags := c.settings()
	result, err := do(ctx, path, oci.PruneSettings{
		Options: c.options(), Settings: s, Retention: c.retention, Tags: tags,
		Planned: func(store *oci.Store, plan *oci.Plan) error { c.tell(store, plan); return nil },
		Log:     c.log,
	})
	if result == nil || result.Plan == nil {
		return err
	}
	c.result = answerOf(name, result.Store, result.Plan, result)
	if err != nil {
		return err
	}
	if c.machine {
		return c.print(c.result)
	}
	return c.sum(result)
}

// log tells what happens as it happens.
func (c *command) log(event oci.Event) {
	if event.Err != nil {
		fmt.Fprintf(c.said, "not %s: %s: %s\n", event.What, event.Blob.Digest, plain(event.Err.Error()))
	} else if !c.machine {
		c.line(event.What+"  ", event.Blob)
		// Who reads along, or reads what a killed prune has left, finds each thing that happened.
		if out, buffered := c.out.(*bufio.Writer); buffered {
			out.Flush()
		}
	}
}

func (c *command) why(ctx context.Context, name digest.Digest, path string) error {
	store, err := oci.Open(ctx, path, c.options())
	if err != nil {
		return err
	}
	s, tags := c.settings()
	if s, err = store.WithTags(s, tags); err != nil {
		return err
	}
	chain, err := store.Why(ctx, name, s)
	if err != nil {
		return err
	}
	held := ""
	if len(chain) == 0 {
		if held, err = c.besides(ctx, store, name, s); err != nil {
			return err
		}
	}
	if c.machine {
		return c.print(map[string]any{"schemaVersion": schemaVersion, "command": "why", "status": statusDone, "digest": name,
			"live": len(chain) > 0, "held": held, "chain": append([]digest.Digest{}, chain...), "tags": tagsOf(store, chain)})
	}
	if len(chain) == 0 {
		if held == "" {
			held = "it is dead"
		} else {
			held = "it is held: " + held
		}
		_, err = fmt.Fprintf(c.out, "%s\n  no chain of names leads to it; %s\n", name, held)
		return err
	}
	for deep, one := range chain {
		word := string(one)
		if word == "" {
			word = topOf(store, chain)
		}
		if _, err := fmt.Fprintf(c.out, "%s%s\n", strings.Repeat("  ", deep), word); err != nil {
			return err
		}
	}
	return nil
}

// tagsOf are those under which the first blob of a chain is listed.
func tagsOf(store *oci.Store, chain []digest.Digest) []string {
	all := []string{}
	if len(chain) > 1 && chain[0] == "" {
		for _, tag := range store.Tags(chain[1]) {
			if tag != "" {
				all = append(all, tag)
			}
		}
	}
	return all
}

// topOf is what a chain begins with, for people: what holds from outside, and the tags.
func topOf(store *oci.Store, chain []digest.Digest) string {
	if all := tagsOf(store, chain); len(all) > 0 {
		return store.Top + ": " + plain(strings.Join(all, ", "))
	}
	return store.Top
}

// besides says why a blob is held to which no chain of names leads, and nothing if it is dead.
func (c *command) besides(ctx context.Context, store *oci.Store, name digest.Digest, s oci.Settings) (string, error) {
	plan, err := store.Plan(ctx, s)
	if err != nil {
		return "", err
	}
	for _, blob := range append(plan.Dead, plan.Moved...) {
		if blob.Digest == name {
			return "", nil
		}
	}
	if why := store.Besides(name, s); why != "" {
		return why, nil
	}
	return "something that is held for its age or damage, or a link, names it", nil
}
