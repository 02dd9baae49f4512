package main

import (
	"time"

	"github.com/spf13/cobra"
	"github.com/spf13/cobra/doc"
)

// manCommand writes the man pages, one for each command; `make install` calls it.
func (c *command) manCommand() *cobra.Command {
	return &cobra.Command{
		Use:    "man FOLDER",
		Short:  "Writes the man pages into FOLDER, which is there",
		Hidden: true,
		Args:   exactly("FOLDER"),
		RunE: func(one *cobra.Command, words []string) error {
			c.began = true
			one.Root().DisableAutoGenTag = true
			for _, other := range one.Root().Commands() {
				// Its own help says how completion is set up.
				if other.Name() == "completion" {
					one.Root().RemoveCommand(other)
				}
			}
			// The same pages whenever they are made.
			date := time.Unix(0, 0).UTC()
			return doc.GenManTree(one.Root(), &doc.GenManHeader{Title: "KULLNEYRA-OCI", Section: "1", Date: &date, Source: "kullneyra " + version}, words[0])
		},
	}
}
