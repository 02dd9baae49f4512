package main

import (
	"bufio"
	"context"
	"encoding/binary"
	"fmt"
	"os"
	"path/filepath"
	"strconv"
	"strings"

	"github.com/spf13/cobra"
	"kullneyra.example/go/kullneyra"
	"kullneyra.example/go/oci"
)

func (c *command) catalogueCommand() *cobra.Command {
	var boxes uint
	var turns int
	var seed string
	one := &cobra.Command{
		Use:   "catalogue STORE FOLDER",
		Short: "Writes store.cat, order.run and objects.txt (number, digest, size, kind) into FOLDER",
		Args:  exactly("STORE", "FOLDER"),
		RunE: func(one *cobra.Command, words []string) error {
			order, err := orderOf(uint32(boxes), turns, seed)
			if err != nil {
				return err
			}
			c.began = true
			return c.catalogue(one.Context(), words[0], words[1], order)
		},
	}
	flags := one.Flags()
	flags.StringArrayVar(&c.keep, "keep", nil, "hold this digest or tag and what it refers to")
	flags.UintVar(&boxes, "boxes", 1, "how many boxes")
	flags.IntVar(&turns, "turns", -1, "so many turns of the boxes, one after the other, each asking the next")
	flags.StringVar(&seed, "seed", "", "cards drawn from the seed A,B, as many as are sure to finish")
	return one
}

// orderOf is the schedule that the options ask for: without any, as many turns as are sure to finish.
func orderOf(boxes uint32, turns int, seed string) (func(*oci.Graph) (oci.Order, error), error) {
	if boxes < 1 || boxes > kullneyra.MostWorkers {
		return nil, fmt.Errorf("%w: --boxes is 1 to %d", errUsage, kullneyra.MostWorkers)
	}
	if turns < -1 || turns >= 0 && seed != "" {
		return nil, fmt.Errorf("%w: --turns or --seed", errUsage)
	}
	if seed != "" {
		first, second, both := strings.Cut(seed, ",")
		a, err := strconv.ParseUint(first, 10, 32)
		b, err2 := strconv.ParseUint(second, 10, 32)
		if !both || err != nil || err2 != nil {
			return nil, fmt.Errorf("%w: --seed %q is no A,B", errUsage, seed)
		}
		return func(s *oci.Graph) (oci.Order, error) {
			return s.SeedOrder(kullneyra.Seed{First: uint32(a), Second: uint32(b)}, boxes)
		}, nil
	}
	if turns < 0 {
		return func(s *oci.Graph) (oci.Order, error) { return s.Enough(boxes) }, nil
	}
	return func(*oci.Graph) (oci.Order, error) { return oci.RoundRobin(boxes, turns), nil }, nil
}

// catalogue writes the files of the course and of support.
func (c *command) catalogue(ctx context.Context, path, folder string, order func(*oci.Graph) (oci.Order, error)) error {
	store, err := oci.Open(ctx, path, oci.Options{})
	if err != nil {
		return err
	}
	s, tags := c.settings()
	if s, err = store.WithTags(s, tags); err != nil {
		return err
	}
	read, err := store.Read(s.Keep)
	if err != nil {
		return err
	}
	made, err := order(read)
	if err != nil {
		return err
	}
	catalogue, err := store.Catalogue(s.Keep)
	if err != nil {
		return err
	}
	if err := os.MkdirAll(folder, 0o755); err != nil {
		return err
	}
	if err := os.WriteFile(filepath.Join(folder, "store.cat"), catalogue, 0o644); err != nil {
		return err
	}
	head := binary.LittleEndian.AppendUint16([]byte{byte(made.Settings.Workers)}, uint16(made.Settings.Batch))
	head = binary.LittleEndian.AppendUint16(head, uint16(made.Settings.Cutoff))
	if err := os.WriteFile(filepath.Join(folder, "order.run"), append(head, made.Schedule...), 0o644); err != nil {
		return err
	}
	return writeObjects(filepath.Join(folder, "objects.txt"), store)
}

func writeObjects(path string, store *oci.Store) error {
	file, err := os.Create(path)
	if err != nil {
		return err
	}
	defer file.Close()
	out := bufio.NewWriter(file)
	for number, blob := range store.Blobs {
		name := string(blob.Digest)
		if name == "" {
			name = strings.ReplaceAll(store.Top, " ", "-")
		}
		fmt.Fprintf(out, "%d %s %d %s\n", number, name, blob.Size, blob.Kind)
	}
	if err := out.Flush(); err != nil {
		return err
	}
	return file.Close()
}
