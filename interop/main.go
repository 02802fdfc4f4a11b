// The comparison of this project's paths, tiles and checkpoint texts with those of Go's checksum database, and of its registries with
// their definitions.
//
// Usage: interop WARG_VECTORS WARG_CHECK WARG_TLOG. With BENCH=1 in the environment it prints times too. docs/INTEROP.md says what is
// compared.
package main

import (
	"fmt"
	"math/rand"
	"os"
)

var random = rand.New(rand.NewSource(1))

func main() {
	if len(os.Args) != 4 {
		fmt.Fprintln(os.Stderr, "usage: interop WARG_VECTORS WARG_CHECK WARG_TLOG")
		os.Exit(2)
	}
	program, logProgram, folderProgram = os.Args[1], os.Args[2], os.Args[3]
	// One entry more, since a log one longer is tried too.
	grow(most + 1)
	comparePaths()
	compareTilePaths()
	compareCheckpoints()
	compareFolders()
	compareServed()
	compareRegistry()
	if os.Getenv("BENCH") == "1" {
		bench()
	}
}

func differ(line, ours, theirs string) {
	fmt.Printf("interop: they differ at: %s\nours:   %s\ntlog's: %s\n", line, ours, theirs)
	os.Exit(1)
}

func stop(err error) {
	if err != nil {
		fmt.Printf("interop: %v\n", err)
		os.Exit(1)
	}
}

// Returns nil if a call of Go's side was refused, as it has to be, and else an error.
func errs[T any](_ T, err error) error {
	if err == nil {
		return fmt.Errorf("tlog gives a path of no place")
	}
	return nil
}
