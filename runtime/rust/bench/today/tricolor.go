// Times containerd's gc.Tricolor on the stores that the benchmark writes: tricolor FOLDER STORE.. prints for each store a line with
// nanoseconds for each reference, the median of some runs. The references of an object stand ready in a slice, and keys are short numbers,
// where containerd looks both up in its database.
package main

import (
	"encoding/binary"
	"fmt"
	"os"
	"path/filepath"
	"sort"
	"strconv"
	"syscall"
	"time"

	"github.com/containerd/containerd/gc"
)

const runs = 3

// references reads a store: the nodes that each object refers to, and how many references there are.
func references(path string) ([][]gc.Node, int, error) {
	bytes, err := os.ReadFile(path)
	if err != nil {
		return nil, 0, err
	}
	word := func(i int) int { return int(binary.LittleEndian.Uint32(bytes[4*i:])) }
	n, m := word(0), word(1)
	nodes := make([]gc.Node, n)
	for v := range nodes {
		nodes[v] = gc.Node{Type: 1, Key: strconv.Itoa(v)}
	}
	all := make([][]gc.Node, n)
	for v := range all {
		for e := word(2 + v); e < word(3+v); e++ {
			all[v] = append(all[v], nodes[word(3+n+e)])
		}
	}
	return all, m, nil
}

// processorTime is what the process has taken so far, so that what other programs take in between is not counted.
func processorTime() time.Duration {
	var usage syscall.Rusage
	if err := syscall.Getrusage(syscall.RUSAGE_SELF, &usage); err != nil {
		panic(err)
	}
	return time.Duration(usage.Utime.Nano() + usage.Stime.Nano())
}

func main() {
	for _, store := range os.Args[2:] {
		all, m, err := references(filepath.Join(os.Args[1], store+".words"))
		if err != nil {
			fmt.Fprintln(os.Stderr, "tricolor:", err)
			os.Exit(1)
		}
		refs := func(node gc.Node) ([]gc.Node, error) {
			v, err := strconv.Atoi(node.Key)
			return all[v], err
		}
		times := make([]float64, runs)
		for i := range times {
			start := processorTime()
			if _, err := gc.Tricolor([]gc.Node{{Type: 1, Key: "0"}}, refs); err != nil {
				fmt.Fprintln(os.Stderr, "tricolor:", err)
				os.Exit(1)
			}
			times[i] = float64((processorTime() - start).Nanoseconds()) / float64(m)
		}
		sort.Float64s(times)
		fmt.Printf("gc.Tricolor\t%s\t%.2f\n", store, times[runs/2])
	}
}
