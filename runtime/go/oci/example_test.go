package oci_test

import (
	"context"
	"errors"
	"fmt"
	"os"
	"path/filepath"
	"time"

	"kullneyra.example/go/oci"
)

// A layout with one blob that nothing names.
func exampleLayout() string {
	path, _ := os.MkdirTemp("", "layout")
	os.MkdirAll(filepath.Join(path, "blobs", "sha256"), 0o755)
	os.WriteFile(filepath.Join(path, "oci-layout"), []byte(`{"imageLayoutVersion":"1.0.0"}`), 0o644)
	os.WriteFile(filepath.Join(path, "index.json"), []byte(`{"schemaVersion":2,"manifests":[]}`), 0o644)
	name := "2cf24dba5fb0a30e26e83b2ac5b9e29e1b161e5c1fa7425e73043362938b9824"
	os.WriteFile(filepath.Join(path, "blobs", "sha256", name), []byte("hello"), 0o644)
	return path
}

func ExampleOpen() {
	path := exampleLayout()
	defer os.RemoveAll(path)
	layout, err := oci.Open(context.Background(), path, oci.Options{})
	if err != nil {
		fmt.Println(err)
		return
	}
	plan, err := layout.Plan(context.Background(), oci.Settings{})
	if err != nil {
		fmt.Println(err)
		return
	}
	for _, blob := range plan.Dead {
		fmt.Println(blob.Digest, blob.Size)
	}
	// Output: sha256:2cf24dba5fb0a30e26e83b2ac5b9e29e1b161e5c1fa7425e73043362938b9824 5
}

func ExamplePrune() {
	path := exampleLayout()
	defer os.RemoveAll(path)
	result, err := oci.Prune(context.Background(), path, oci.PruneSettings{Retention: 24 * time.Hour})
	switch {
	case errors.Is(err, oci.ErrLocked), errors.Is(err, oci.ErrChanged), errors.Is(err, oci.ErrPartly):
		fmt.Println("once more, later:", err)
	case err != nil:
		fmt.Println(err)
	default:
		fmt.Println(len(result.Moved), "moved,", len(result.Deleted), "deleted")
	}
	// Output: 1 moved, 0 deleted
}
