package main

import (
	"encoding/json"
	"fmt"

	digest "github.com/opencontainers/go-digest"
	"kullneyra.example/go/oci"
)

// schemaVersion is that of what --json prints.
const schemaVersion = 1

// tell says on standard error what is not as it should be.
func (c *command) tell(store *oci.Store, plan *oci.Plan) {
	for _, path := range store.Stray {
		fmt.Fprintf(c.said, "left alone, no blob: %s\n", plain(path))
	}
	for _, one := range plan.Missing {
		by, what := string(one.By), "not there"
		if by == "" {
			by = store.Top
		}
		if one.Foreign {
			what = "foreign, and not there"
		}
		fmt.Fprintf(c.said, "%s: %s; %s refers to it\n", what, plain(string(one.Digest)), by)
	}
	for _, one := range plan.Damaged {
		fmt.Fprintf(c.said, "damaged: %s: %s\n", one.Digest, plain(one.Err.Error()))
	}
	if store.Shared != "" {
		fmt.Fprintf(c.said, "prune would refuse: %s\n", store.Shared)
	}
	if plan.Untagged > 0 && !c.untagged {
		fmt.Fprintf(c.said, "%d %s have no tag, and alone hold %s; --untagged takes them out\n", plan.Untagged, store.Entry, size(int64(plan.UntaggedFreed)))
	}
	if store.Uploads > 0 {
		fmt.Fprintf(c.said, "%d uploads have begun and not ended; they are left alone\n", store.Uploads)
	}
	if plan.Young > 0 {
		fmt.Fprintf(c.said, "%d dead blobs are younger than %s, and are held\n", plan.Young, c.grace)
	}
}

// line is a blob for people: digest, size, kind.
func (c *command) line(before string, blob *oci.Blob) error {
	size := size(blob.Size)
	line := append(append(append(c.scratch[:0], before...), blob.Digest...), "          "[min(len(size), 9):]...)
	line = append(append(append(append(line, size...), "  "...), blob.Kind...), '\n')
	c.scratch = line
	_, err := c.out.Write(line)
	return err
}

func min(a, b int) int {
	if a < b {
		return a
	}
	return b
}

// table is the plan for people.
func (c *command) table(plan *oci.Plan, verb string) error {
	for _, blob := range plan.Dead {
		if err := c.line("", blob); err != nil {
			return err
		}
	}
	_, err := fmt.Fprintf(c.out, "%d blobs dead, %s %s, %d objects live\n", len(plan.Dead), size(int64(plan.Freed)), verb, plan.Live)
	if err == nil && len(plan.Moved)+len(plan.Return) > 0 {
		_, err = fmt.Fprintf(c.out, "%d blobs were moved before, %s; %d of them are named by now\n", len(plan.Moved)+len(plan.Return), size(bytesOf(plan.Moved)+bytesOf(plan.Return)), len(plan.Return))
	}
	return err
}

func bytesOf(all []*oci.Blob) (sum int64) {
	for _, blob := range all {
		sum += blob.Size
	}
	return sum
}

// sum is what a prune did, for people.
func (c *command) sum(result *oci.Result) error {
	_, err := fmt.Fprintf(c.out, "%d blobs moved, %s; %d put back; %d deleted, %s freed; %d objects live\n",
		len(result.Moved), size(bytesOf(result.Moved)), len(result.PutBack), len(result.Deleted), size(bytesOf(result.Deleted)), result.Plan.Live)
	return err
}

type blobJSON struct {
	Digest digest.Digest `json:"digest"`
	Size   int64         `json:"size"`
	Kind   string        `json:"kind"`
}

type missingJSON struct {
	Digest  digest.Digest `json:"digest"`
	By      digest.Digest `json:"by,omitempty"`
	Foreign bool          `json:"foreign"`
}

type faultJSON struct {
	Digest digest.Digest `json:"digest"`
	What   string        `json:"what,omitempty"`
	Error  string        `json:"error"`
}

type untaggedJSON struct {
	Entries int    `json:"entries"`
	Bytes   uint64 `json:"bytes"`
	Removed int    `json:"removed"`
}

// answer is what --json prints.
type answer struct {
	SchemaVersion int           `json:"schemaVersion"`
	Command       string        `json:"command"`
	Error         string        `json:"error,omitempty"`
	Status        int           `json:"status"`
	Live          uint64        `json:"live"`
	Freed         uint64        `json:"freed"` // bytes of what is dead
	Dead          []blobJSON    `json:"dead"`
	Young         int           `json:"young"`
	Missing       []missingJSON `json:"missing"`
	Damaged       []faultJSON   `json:"damaged"`
	Stray         []string      `json:"stray"`
	Shared        string        `json:"shared,omitempty"`
	Untagged      untaggedJSON  `json:"untagged"`
	Uploads       int           `json:"uploads"`
	Before        []blobJSON    `json:"movedBefore"`
	Named         []blobJSON    `json:"movedAndNamed"`
	Moved         []blobJSON    `json:"moved"`
	PutBack       []blobJSON    `json:"putBack"`
	Deleted       []blobJSON    `json:"deleted"`
	Links         int           `json:"links"` // that went or came with what they hang on
	Failed        []faultJSON   `json:"failed"`
}

func listOf(all []*oci.Blob) []blobJSON {
	out := []blobJSON{}
	for _, blob := range all {
		out = append(out, blobJSON{blob.Digest, blob.Size, blob.Kind})
	}
	return out
}

func answerOf(command string, store *oci.Store, plan *oci.Plan, result *oci.Result) *answer {
	if result == nil {
		result = &oci.Result{}
	}
	a := &answer{
		SchemaVersion: schemaVersion, Command: command, Live: plan.Live, Freed: plan.Freed, Dead: listOf(plan.Dead), Young: plan.Young,
		Missing: []missingJSON{}, Damaged: []faultJSON{}, Stray: append([]string{}, store.Stray...), Shared: store.Shared,
		Untagged: untaggedJSON{plan.Untagged, plan.UntaggedFreed, result.Listed}, Uploads: store.Uploads, Links: result.Links,
		Before: listOf(plan.Moved), Named: listOf(plan.Return),
		Moved: listOf(result.Moved), PutBack: listOf(result.PutBack), Deleted: listOf(result.Deleted), Failed: []faultJSON{},
	}
	for _, one := range plan.Missing {
		a.Missing = append(a.Missing, missingJSON{one.Digest, one.By, one.Foreign})
	}
	for _, one := range plan.Damaged {
		a.Damaged = append(a.Damaged, faultJSON{Digest: one.Digest, Error: one.Err.Error()})
	}
	for _, one := range result.Failed {
		a.Failed = append(a.Failed, faultJSON{one.Blob.Digest, one.What, one.Err.Error()})
	}
	return a
}

func (c *command) print(value any) error {
	encoder := json.NewEncoder(c.out)
	encoder.SetIndent("", "  ")
	return encoder.Encode(value)
}

// printFailure is what --json prints where the command fails: what is known by then, and why.
func (c *command) printFailure(name string, err error, status int) {
	if c.result == nil {
		c.print(struct {
			SchemaVersion int    `json:"schemaVersion"`
			Command       string `json:"command"`
			Error         string `json:"error"`
			Status        int    `json:"status"`
		}{schemaVersion, name, err.Error(), status})
		return
	}
	c.result.Error, c.result.Status = err.Error(), status
	c.print(c.result)
}
