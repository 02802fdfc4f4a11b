// Times. Ours are those of many lines, less those of as many lines of the same length that are refused by their lengths
// alone, before anything is hashed but the leaf.
package main

import (
	"fmt"
	"time"

	"golang.org/x/mod/sumdb/tlog"
)

const (
	benchLength = 100000
	benchLines  = 50000
	benchTurns  = 7
)

type row struct {
	name           string
	right, refused string
	theirs         func()
}

func bench() {
	const length, index, old = benchLength, 12345, 65535
	path, err := tlog.ProveRecord(length, index, stored)
	stop(err)
	growth, err := tlog.ProveTree(length, old, stored)
	stop(err)
	top, oldRoot := rootOf(length), rootOf(old)
	leaf := tlog.RecordHash([]byte(value(index)))
	pair := tlog.NodeHash(leaf, top)
	one := []tlog.Hash{top}
	rows := []row{
		{
			fmt.Sprintf("CheckRecord, %d digests", len(path)),
			fmt.Sprintf("check_record %s %d %s %d %s", bytesOf(path), index, hexOf(value(index)), length, digits(top)),
			fmt.Sprintf("check_record %s %d %s %d %s", bytesOf(path), length, hexOf(value(index)), index, digits(top)),
			func() { stop(tlog.CheckRecord(path, length, top, index, leaf)) },
		},
		{
			fmt.Sprintf("CheckTree, %d digests", len(growth)),
			fmt.Sprintf("check_tree %s %d %s %d %s", bytesOf(growth), old, digits(oldRoot), length, digits(top)),
			fmt.Sprintf("check_tree %s %d %s %d %s", bytesOf(growth), length, digits(oldRoot), old, digits(top)),
			func() { stop(tlog.CheckTree(growth, length, top, old, oldRoot)) },
		},
		{
			"one branch hash",
			fmt.Sprintf("check_record %s 0 %s 2 %s", bytesOf(one), hexOf(value(index)), digits(pair)),
			fmt.Sprintf("check_record %s 2 %s 0 %s", bytesOf(one), hexOf(value(index)), digits(pair)),
			func() { tlog.NodeHash(leaf, top) },
		},
	}
	for _, row := range rows {
		right, refused, theirs := time.Hour, time.Hour, time.Hour
		for i := 0; i < benchTurns; i++ {
			right = least(right, func() { same(row.right, "true") })
			theirs = least(theirs, func() {
				for i := 0; i < benchLines; i++ {
					row.theirs()
				}
			})
			refused = least(refused, func() { same(row.refused, "false") })
		}
		fmt.Printf("%s: ours %.2f µs, tlog's %.2f µs\n", row.name, each(right-refused), each(theirs))
	}
}

// Sends one line many times.
func same(line, wanted string) {
	lines := make([]string, benchLines)
	for i := range lines {
		lines[i] = line
	}
	for _, answer := range run(program, lines) {
		if answer != wanted {
			differ(line, answer, wanted)
		}
	}
}

func least(before time.Duration, work func()) time.Duration {
	began := time.Now()
	work()
	if taken := time.Since(began); taken < before {
		return taken
	}
	return before
}

func each(all time.Duration) float64 { return float64(all.Nanoseconds()) / benchLines / 1000 }
