// Paths, and the verdicts on paths.
package main

import (
	"fmt"
	"sort"
	"strings"

	"golang.org/x/mod/sumdb/tlog"
)

const (
	mostInFull = 300     // Every index of every length up to this.
	mostPairs  = 60      // Every pair of lengths up to this.
	morePairs  = 1000    // Random pairs of lengths up to mostInFull.
	randomLogs = 200     // Random logs, each with random indices and old lengths.
	most       = 1 << 20 // The greatest of these logs.
	perLog     = 4       // So many indices and old lengths of each.
)

var records, trees, accepted, refused int

// The lengths whose roots are compared, ascending.
var rootLengths []int64

func comparePaths() {
	for length := int64(1); length <= mostInFull; length++ {
		wholeLog(length)
	}
	for i := 0; i < morePairs; i++ {
		new := 1 + random.Int63n(mostInFull)
		tree(1+random.Int63n(new), new)
	}
	randomOnes()
	send()
	compareRoots()
	fmt.Printf("interop: %d roots, %d inclusion paths and %d consistency paths are the same; of %d verdicts, %d true and %d false, all agree\n",
		len(rootLengths), records, trees, accepted+refused, accepted, refused)
}

// Compares the log of one length with every index, and, where it is short, every old length.
func wholeLog(length int64) {
	rootLengths = append(rootLengths, length)
	digestsOf(length)
	for index := int64(0); index < length; index++ {
		record(index, length)
	}
	ask(fmt.Sprintf("inclusion_path Sha256 %d %d []", length, length), "refused OutOfRange", errs(tlog.ProveRecord(length, length, stored)))
	if length > mostPairs {
		return
	}
	for old := int64(1); old <= length; old++ {
		tree(old, length)
	}
	ask(fmt.Sprintf("consistency_path Sha256 %d %d []", length+1, length), "refused OutOfRange", errs(tlog.ProveTree(length, length+1, stored)))
	ask(fmt.Sprintf("consistency_path Sha256 0 %d []", length), "refused OutOfRange", errs(tlog.ProveTree(length, 0, stored)))
}

func randomOnes() {
	lengths := []int64{most}
	for len(lengths) < randomLogs {
		lengths = append(lengths, 1+random.Int63n(most))
	}
	sort.Slice(lengths, func(i, j int) bool { return lengths[i] < lengths[j] })
	for _, length := range lengths {
		rootLengths = append(rootLengths, length)
		for i := 0; i < perLog; i++ {
			record(random.Int63n(length), length)
			tree(1+random.Int63n(length), length)
		}
	}
}

// Compares all digests of the log of one length, by the numbers of their nodes.
func digestsOf(length int64) {
	entries := make([]string, length)
	for i := range entries {
		entries[i] = hexOf(value(int64(i)))
	}
	line := "log Sha256 " + strings.Join(entries, ",")
	askJudged(line, func(answer string) error {
		words := strings.Split(answer, " ")
		if len(words) != 3 || words[0] != fmt.Sprint(length) || words[1] != digits(rootOf(length)) {
			return fmt.Errorf("%d %s", length, digits(rootOf(length)))
		}
		ours := strings.Split(words[2], ",")
		for place := int64(0); place < tlog.StoredHashCount(length); place++ {
			if node := nodeOf(place); node >= int64(len(ours)) || ours[node] != digits(hashes[place]) {
				return fmt.Errorf("node %d has %s", node, digits(hashes[place]))
			}
		}
		return nil
	})
}

// Compares the roots of all lengths with those of the program that keeps a log.
func compareRoots() {
	var lines, wanted []string
	pushed := int64(0)
	for _, length := range rootLengths {
		for ; pushed < length; pushed++ {
			lines = append(lines, "push "+hexOf(value(pushed)))
			wanted = append(wanted, fmt.Sprintf("node %d", 2*pushed))
		}
		lines = append(lines, "log")
		wanted = append(wanted, fmt.Sprintf("log %d %s", length, digits(rootOf(length))))
	}
	for i, answer := range run(logProgram, lines) {
		if answer != wanted[i] {
			differ(lines[i], answer, wanted[i])
		}
	}
}

// Compares the inclusion path of one place, and the verdicts on it and on what differs from it.
func record(index, length int64) {
	reader := &recorder{}
	path, err := tlog.ProveRecord(length, index, reader)
	stop(err)
	records++
	askPath(fmt.Sprintf("inclusion_path Sha256 %d %d %s", index, length, reader.data()), path, func(ours []tlog.Hash) error {
		return tlog.CheckRecord(ours, length, rootOf(length), index, tlog.RecordHash([]byte(value(index))))
	})
	// The entry of another index is one that the log has elsewhere, or one that it hasn't yet.
	check := func(index, entry, length int64, root tlog.Hash, path []tlog.Hash) {
		err := tlog.CheckRecord(path, length, root, index, tlog.RecordHash([]byte(value(entry))))
		askVerdict(fmt.Sprintf("check_record %s %d %s %d %s", bytesOf(path), index, hexOf(value(entry)), length, digits(root)), err)
	}
	root := rootOf(length)
	check(index, index, length, root, path)
	for _, wrong := range wrongPaths(path) {
		check(index, index, length, root, wrong)
	}
	check(index+1, index, length, root, path)
	check(index+1, index+1, length, root, path)
	check(index, index+1, length, root, path)
	check(index, index, length+1, root, path)
	check(index, index, length-1, root, path)
	check(index, index, length+1, rootOf(length+1), path)
	check(index, index, length, flipped(root), path)
}

// Compares the consistency path between two lengths, and the verdicts on it and on what differs from it.
func tree(old, new int64) {
	reader := &recorder{}
	path, err := tlog.ProveTree(new, old, reader)
	stop(err)
	trees++
	askPath(fmt.Sprintf("consistency_path Sha256 %d %d %s", old, new, reader.data()), path, func(ours []tlog.Hash) error {
		return tlog.CheckTree(ours, new, rootOf(new), old, rootOf(old))
	})
	check := func(old int64, oldRoot tlog.Hash, new int64, newRoot tlog.Hash, path []tlog.Hash) {
		err := tlog.CheckTree(path, new, newRoot, old, oldRoot)
		askVerdict(fmt.Sprintf("check_tree %s %d %s %d %s", bytesOf(path), old, digits(oldRoot), new, digits(newRoot)), err)
	}
	oldRoot, newRoot := rootOf(old), rootOf(new)
	check(old, oldRoot, new, newRoot, path)
	for _, wrong := range wrongPaths(path) {
		check(old, oldRoot, new, newRoot, wrong)
	}
	check(old+1, oldRoot, new, newRoot, path)
	check(old+1, rootOf(old+1), new, newRoot, path)
	check(old-1, oldRoot, new, newRoot, path)
	check(old, oldRoot, new+1, newRoot, path)
	check(old, oldRoot, new-1, newRoot, path)
	check(old, oldRoot, new+1, rootOf(new+1), path)
	check(old, flipped(oldRoot), new, newRoot, path)
	check(old, oldRoot, new, flipped(newRoot), path)
	check(new, newRoot, old, oldRoot, path)
}
