// The log of Go's side: its entries are the numbers from 0 on, in decimal.
package main

import (
	"fmt"
	"sort"
	"strconv"
	"strings"

	"golang.org/x/mod/sumdb/tlog"
)

var hashes []tlog.Hash

var stored = tlog.HashReaderFunc(func(places []int64) ([]tlog.Hash, error) {
	found := make([]tlog.Hash, len(places))
	for i, place := range places {
		found[i] = hashes[place]
	}
	return found, nil
})

func grow(length int64) {
	for i := int64(0); i < length; i++ {
		more, err := tlog.StoredHashes(i, []byte(value(i)), stored)
		stop(err)
		hashes = append(hashes, more...)
	}
}

func value(index int64) string { return strconv.FormatInt(index, 10) }

func rootOf(length int64) tlog.Hash {
	root, err := tlog.TreeHash(length, stored)
	stop(err)
	return root
}

// The number of a stored digest's node.
func nodeOf(place int64) int64 {
	level, index := tlog.SplitStoredHashIndex(place)
	return (2*index+1)<<uint(level) - 1
}

// A reader that keeps in mind what was read.
type recorder struct{ places map[int64]bool }

func (r *recorder) ReadHashes(places []int64) ([]tlog.Hash, error) {
	if r.places == nil {
		r.places = map[int64]bool{}
	}
	for _, place := range places {
		r.places[place] = true
	}
	return stored.ReadHashes(places)
}

// What was read, as data of a call: nodes with their digests, ascending.
func (r *recorder) data() string {
	var places []int64
	for place := range r.places {
		places = append(places, place)
	}
	if len(places) == 0 {
		return "[]"
	}
	sort.Slice(places, func(i, j int) bool { return nodeOf(places[i]) < nodeOf(places[j]) })
	pairs := make([]string, len(places))
	for i, place := range places {
		pairs[i] = fmt.Sprintf("%d:%s", nodeOf(place), digits(hashes[place]))
	}
	return strings.Join(pairs, ",")
}
