// Logs in folders, as warg_tlog keeps them, read by tlog.TileHashReader.
package main

import (
	"bytes"
	"encoding/hex"
	"fmt"
	"os"
	"os/exec"
	"path/filepath"
	"sort"
	"strings"

	"golang.org/x/mod/sumdb/tlog"
)

const (
	folderInFull = 600 // Every index and every old length of every length up to this.
	folderLogs   = 20  // Random lengths up to most, in one folder.
	perFolderLog = 50  // So many random indices and old lengths of each.
	folderOrigin = "example.com/log"
)

var (
	folderProgram string
	folderRecords int
	folderTrees   int
	folderTiles   int
)

func compareFolders() {
	room, err := os.MkdirTemp("", "warg-tlog-")
	stop(err)
	defer os.RemoveAll(room)
	log := newFolder(filepath.Join(room, "every"))
	for length := int64(1); length <= folderInFull; length++ {
		log.append(length)
		for i := int64(0); i < length; i++ {
			log.record(i)
			log.tree(i + 1)
		}
		log.ours(random.Int63n(length), 1+random.Int63n(length))
	}
	log = newFolder(filepath.Join(room, "random"))
	for _, length := range folderLengths() {
		log.append(length)
		for i := 0; i < perFolderLog; i++ {
			log.record(random.Int63n(length))
			log.tree(1 + random.Int63n(length))
			log.ours(random.Int63n(length), 1+random.Int63n(length))
		}
	}
	fmt.Printf("interop: out of folders of %d lengths, tlog.TileHashReader proves %d records and %d trees, and %d tiles are those that tlog makes\n",
		folderInFull+folderLogs, folderRecords, folderTrees, folderTiles)
}

// Random lengths, in ascending order, the greatest one last.
func folderLengths() []int64 {
	lengths := []int64{most}
	for len(lengths) < folderLogs {
		lengths = append(lengths, 1+random.Int63n(most))
	}
	sort.Slice(lengths, func(i, j int) bool { return lengths[i] < lengths[j] })
	return lengths
}

// A log's files: in a folder, or behind a server.
type files interface {
	// The bytes of the file with this path.
	get(path string) ([]byte, error)
}

// A log in a folder, at the checkpoint that it has.
type folder struct {
	name   string
	length int64
	reader *tileReader
}

func newFolder(name string) *folder {
	tlogRun(nil, "init", name, folderOrigin)
	return &folder{name: name}
}

func (f *folder) get(path string) ([]byte, error) { return os.ReadFile(filepath.Join(f.name, path)) }

// Appends entries up to a length, and reads the checkpoint, which has to be tlog's, as each new tile has to be.
func (f *folder) append(length int64) {
	first := f.length
	var lines bytes.Buffer
	for ; f.length < length; f.length++ {
		lines.WriteString(hex.EncodeToString([]byte(value(f.length))) + "\n")
	}
	said := string(tlogRun(lines.Bytes(), "append", f.name))
	if wanted := fmt.Sprintf("first %d, length %d\n", first, length); said != wanted {
		differ("append", said, wanted)
	}
	f.reader = readerOf(f, length)
	f.newTiles(first)
}

// Compares the tiles that the log has beyond an older length with those that tlog makes. Some versions of tlog name a partial
// tile of each width in between, too.
func (f *folder) newTiles(first int64) {
	for _, tile := range tlog.NewTiles(8, first, f.length) {
		if end := f.length >> uint(8*tile.L); tile.W < 256 && 256*tile.N+int64(tile.W) < end {
			continue
		}
		theirs, err := tlog.ReadTileData(tile, stored)
		stop(err)
		ours, err := f.get(pathOf(tile))
		stop(err)
		if !bytes.Equal(ours, theirs) {
			differ(pathOf(tile), hex.EncodeToString(ours), hex.EncodeToString(theirs))
		}
		folderTiles++
	}
}

// The reader of a log's tiles, at the checkpoint that the files have.
func readerOf(from files, length int64) *tileReader {
	text, err := from.get("checkpoint")
	stop(err)
	text, err = underGoOrigin(text)
	stop(err)
	tree, err := tlog.ParseTree(text)
	stop(err)
	if tree.N != length || tree.Hash != rootOf(length) {
		stop(fmt.Errorf("the checkpoint has %d entries and root %s", tree.N, digits(tree.Hash)))
	}
	if string(text) != string(tlog.FormatTree(tree)) {
		stop(fmt.Errorf("tlog.FormatTree writes another text than %q", text))
	}
	return &tileReader{from: from, tree: tree, kept: map[tlog.Tile][]byte{}}
}

// The checkpoint's text under the one origin that tlog.ParseTree takes, which has spaces, so that no log of ours has it.
func underGoOrigin(text []byte) ([]byte, error) {
	if !bytes.HasPrefix(text, []byte(folderOrigin+"\n")) {
		return nil, fmt.Errorf("the checkpoint has another origin: %q", text)
	}
	return append([]byte(goOrigin), text[len(folderOrigin):]...), nil
}

// Reads an entry out of its bundle, and proves it by the tiles alone.
func (r *tileReader) proved(index int64) []byte {
	hashes := tlog.TileHashReader(r.tree, r)
	path, err := tlog.ProveRecord(r.tree.N, index, hashes)
	stop(err)
	entry := r.entry(index)
	stop(tlog.CheckRecord(path, r.tree.N, r.tree.Hash, index, tlog.RecordHash(entry)))
	return entry
}

// Proves an entry by the tiles alone, and compares it.
func (r *tileReader) record(index int64) {
	if entry := r.proved(index); string(entry) != value(index) {
		stop(fmt.Errorf("entry %d is %q", index, entry))
	}
}

func (f *folder) record(index int64) {
	f.reader.record(index)
	folderRecords++
}

// Proves an old length by the tiles alone.
func (f *folder) tree(old int64) {
	path, err := tlog.ProveTree(f.length, old, tlog.TileHashReader(f.reader.tree, f.reader))
	stop(err)
	stop(tlog.CheckTree(path, f.length, f.reader.tree.Hash, old, rootOf(old)))
	folderTrees++
}

// Compares the paths that our program prints, at the log's length and at an older one, with tlog's.
func (f *folder) ours(index, old int64) {
	path, err := tlog.ProveRecord(f.length, index, stored)
	stop(err)
	f.same(path, "prove", f.name, fmt.Sprint(index))
	growth, err := tlog.ProveTree(f.length, old, stored)
	stop(err)
	f.same(growth, "consistency", f.name, fmt.Sprint(old))
	if index < old {
		path, err = tlog.ProveRecord(old, index, stored)
		stop(err)
		f.same(path, "prove", f.name, fmt.Sprint(index), fmt.Sprint(old))
	}
}

func (f *folder) same(path []tlog.Hash, words ...string) {
	ours := strings.Fields(string(tlogRun(nil, words...)))
	if theirs := list(path); strings.Join(ours, ",") != strings.Trim(theirs, "[]") {
		differ(strings.Join(words, " "), strings.Join(ours, ","), theirs)
	}
}

// Runs warg_tlog, and returns what it writes.
func tlogRun(input []byte, words ...string) []byte {
	command := exec.Command(folderProgram, words...)
	command.Stdin, command.Stderr = bytes.NewReader(input), os.Stderr
	output, err := command.Output()
	stop(err)
	return output
}
