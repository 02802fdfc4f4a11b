// Paths that differ a little.
package main

import (
	"golang.org/x/mod/sumdb/tlog"
)

var flips int

// The paths that differ a little from one: a bit flipped in each digest, neighbours swapped, one digest more, one less.
func wrongPaths(path []tlog.Hash) [][]tlog.Hash {
	var wrong [][]tlog.Hash
	for i := range path {
		other := copied(path)
		other[i] = flipped(other[i])
		wrong = append(wrong, other)
	}
	for i := 1; i < len(path); i++ {
		other := copied(path)
		other[i-1], other[i] = other[i], other[i-1]
		wrong = append(wrong, other)
	}
	more := tlog.RecordHash([]byte("more"))
	wrong = append(wrong, append(copied(path), more), append([]tlog.Hash{more}, path...))
	if len(path) > 0 {
		wrong = append(wrong, copied(path)[1:], copied(path)[:len(path)-1])
	}
	return wrong
}

func copied(path []tlog.Hash) []tlog.Hash { return append([]tlog.Hash{}, path...) }

// The hash with one bit flipped: each time the next bit, of 256.
func flipped(hash tlog.Hash) tlog.Hash {
	hash[flips/8%32] ^= 1 << (flips % 8)
	flips++
	return hash
}
