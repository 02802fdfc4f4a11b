// Registries in folders, behind a web server: their pages, their proofs, and the map that their log makes.
package main

import (
	"bytes"
	"crypto/sha256"
	"encoding/base64"
	"encoding/binary"
	"encoding/hex"
	"errors"
	"fmt"
	"os"
	"os/exec"
	"path/filepath"
	"sort"
	"strings"

	"golang.org/x/mod/sumdb/tlog"
)

const (
	registryKeys   = 2000    // So many keys are inserted, most of them several times.
	registryPairs  = 100     // So many pairs of keys whose digests share many bits; of half of them one key is never inserted.
	registrySought = 1 << 20 // Out of so many.
	keysAsked      = 200     // At each length.
)

// The lengths of a registry, and whether it is pruned there.
var registryLengths = []struct {
	length int
	pruned bool
}{{0, false}, {1, false}, {256, false}, {300, true}, {3000, false}, {6000, false}, {6000, true}}

// A key, and the value that it is given.
type insertion struct{ key, value []byte }

// Asks registries of several lengths for keys: by their pages, and by `get`.
func compareRegistry() {
	if _, err := exec.LookPath("python3"); err != nil {
		fmt.Println("interop: no registry is served, python3 is missing")
		return
	}
	room, err := os.MkdirTemp("", "warg-tlog-")
	stop(err)
	defer os.RemoveAll(room)
	name := filepath.Join(room, "registry")
	tlogRun(nil, "init", "--map", name, folderOrigin)
	server, port := serve(name)
	defer end(server)
	keys, close := keysOfRegistry()
	made, held, absent, files := []insertion{}, 0, 0, 0
	for _, at := range registryLengths {
		made = publish(name, made, keys, at.length)
		if at.pruned {
			tlogRun(nil, "prune", name)
		}
		found := registryOf(served("http://127.0.0.1:"+port+"/"), made)
		for i := 0; i < keysAsked; i++ {
			key := keys[random.Intn(len(keys))]
			if i%2 == 0 {
				key = close[random.Intn(len(close))]
			}
			if found.ask(name, key) {
				held++
			} else {
				absent++
			}
		}
		files += len(found.kept)
	}
	fmt.Printf("interop: a registry, at %d times up to %d insertions, names the map that its log makes, and proves %d keys as held and %d as absent through python3 -m http.server, by %d pages\n",
		len(registryLengths), len(made), held, absent, files)
}

// Keys that are inserted, and close ones, of which some aren't.
func keysOfRegistry() (keys, close [][]byte) {
	sought := make([]heldKey, registrySought)
	for i := range sought {
		sought[i].key = sha256.Sum256(closeKey(i))
		binary.BigEndian.PutUint64(sought[i].leaf[:], uint64(i))
	}
	sortKeys(sought)
	pairs := make([]int, len(sought)-1)
	for i := range pairs {
		pairs[i] = i
	}
	sort.SliceStable(pairs, func(i, j int) bool {
		return sharedBits(sought[pairs[i]].key, sought[pairs[i]+1].key) > sharedBits(sought[pairs[j]].key, sought[pairs[j]+1].key)
	})
	for count, pair := range pairs[:registryPairs] {
		for _, key := range sought[pair : pair+2] {
			close = append(close, closeKey(int(binary.BigEndian.Uint64(key.leaf[:]))))
		}
		keys = append(keys, close[len(close)-2])
		if count%2 == 0 {
			keys = append(keys, close[len(close)-1])
		}
	}
	keys = append(keys, []byte{})
	for len(keys) < registryKeys {
		keys = append(keys, []byte(fmt.Sprint("key ", len(keys))))
	}
	return keys, close
}

func closeKey(number int) []byte { return []byte(fmt.Sprint("close ", number)) }

func sharedBits(one, other digest) int {
	for at := 0; at < levels; at++ {
		if bitOf(one, at) != bitOf(other, at) {
			return at
		}
	}
	return levels
}

func sortKeys(keys []heldKey) {
	sort.Slice(keys, func(i, j int) bool { return bytes.Compare(keys[i].key[:], keys[j].key[:]) < 0 })
}

// Publishes insertions up to a length, at once. Each twentieth value has no bytes.
func publish(name string, made []insertion, keys [][]byte, length int) []insertion {
	var lines bytes.Buffer
	first := len(made)
	for len(made) < length {
		next := insertion{keys[random.Intn(len(keys))], nil}
		if len(made)%20 != 19 {
			next.value = []byte(fmt.Sprint("value ", len(made)))
		}
		lines.WriteString(hexOf(string(next.key)) + " " + hexOf(string(next.value)) + "\n")
		made = append(made, next)
	}
	said := string(tlogRun(lines.Bytes(), "publish", name))
	if wanted := fmt.Sprintf("first %d, length %d\n", first, length); said != wanted {
		differ("publish", said, wanted)
	}
	return made
}

// A registry at the checkpoint that it serves.
type registry struct {
	log  *tileReader
	root digest
	made []insertion
	kept map[string][]byte
}

// Reads the checkpoint and the log, each entry proved by its tiles; they have to be the insertions, and the map that these make the
// one that the checkpoint names.
func registryOf(from files, made []insertion) *registry {
	text, err := from.get("checkpoint")
	stop(err)
	log, found := text[:bytes.LastIndexByte(text[:len(text)-1], '\n')+1], &registry{made: made, kept: map[string][]byte{}}
	line := strings.TrimPrefix(string(text[len(log):]), "map ")
	root, err := base64.StdEncoding.DecodeString(strings.TrimSuffix(line, "\n"))
	stop(err)
	if len(root) != sha256.Size || string(text) != string(log)+"map "+line {
		stop(fmt.Errorf("the checkpoint names no map: %q", text))
	}
	copy(found.root[:], root)
	log, err = underGoOrigin(log)
	stop(err)
	tree, err := tlog.ParseTree(log)
	stop(err)
	if string(tlog.FormatTree(tree)) != string(log) || tree.N != int64(len(made)) {
		stop(fmt.Errorf("the checkpoint isn't of %d insertions: %q", len(made), text))
	}
	found.log = &tileReader{from: from, tree: tree, kept: map[tlog.Tile][]byte{}}
	if ours := found.mapOfLog(); found.root != ours {
		differ("the map's root", hex.EncodeToString(root), hex.EncodeToString(ours[:]))
	}
	return found
}

// The root of the map that the log's entries make.
func (r *registry) mapOfLog() digest {
	leaves := map[digest]digest{}
	for i, made := range r.made {
		read, err := insertionOf(r.log.proved(int64(i)))
		stop(err)
		if !bytes.Equal(read.key, made.key) || !bytes.Equal(read.value, made.value) {
			stop(fmt.Errorf("entry %d is %q", i, read))
		}
		leaves[sha256.Sum256(read.key)] = leafOf(read.value)
	}
	keys := make([]heldKey, 0, len(leaves))
	for key, leaf := range leaves {
		keys = append(keys, heldKey{key, leaf})
	}
	sortKeys(keys)
	return sparseOf(keys, 0)
}

// The insertion of an entry: the key and then the value, each behind its length in 8 bytes.
func insertionOf(entry []byte) (read insertion, err error) {
	for _, part := range []*[]byte{&read.key, &read.value} {
		if len(entry) < 8 || binary.BigEndian.Uint64(entry) > uint64(len(entry)-8) {
			return read, errors.New("an entry is cut short")
		}
		end := 8 + binary.BigEndian.Uint64(entry)
		*part, entry = entry[8:end], entry[end:]
	}
	if len(entry) > 0 {
		err = errors.New("an entry goes on behind its value")
	}
	return read, err
}

func (r *registry) page(path string) ([]byte, error) {
	if bytes, is := r.kept[path]; is {
		return bytes, nil
	}
	bytes, err := r.log.from.get(path)
	if err == nil {
		r.kept[path] = bytes
	}
	return bytes, err
}

// Asks for a key by the pages and by `get`, whose proof has to be that of the pages. Returns whether it is held.
func (r *registry) ask(name string, key []byte) bool {
	hashed := sha256.Sum256(key)
	found, err := wayTo(hashed, r.root, uint64(r.log.tree.N), r.page)
	stop(err)
	wanted, kind := "absent\n", byte(2)
	if found.isHeld {
		read, err := insertionOf(r.log.entry(int64(found.version - 1)))
		stop(err)
		if !bytes.Equal(read.key, key) || leafOf(read.value) != found.leaf {
			stop(fmt.Errorf("entry %d isn't the one of key %q", found.version-1, key))
		}
		wanted, kind = fmt.Sprintf("value %s\nindex %d\n", hexOf(string(read.value)), found.version-1), 1
	}
	if found.isHeld != (r.last(key) >= 0) || found.isHeld && r.last(key) != int(found.version-1) {
		stop(fmt.Errorf("key %q was last inserted at %d", key, r.last(key)))
	}
	said := string(tlogRun(nil, "get", name, hexOf(string(key))))
	if !strings.HasPrefix(said, wanted+"proof ") {
		differ("get "+hexOf(string(key)), said, wanted)
	}
	proof, err := proofOf(strings.TrimSuffix(said[len(wanted+"proof "):], "\n"), kind)
	stop(err)
	proof.leaf = found.leaf
	if proof.peers != found.peers || proof.root(hashed) != r.root {
		differ("get "+hexOf(string(key)), said, fmt.Sprintf("%x", found.peers))
	}
	return found.isHeld
}

// The index of a key's last insertion, -1 where there is none.
func (r *registry) last(key []byte) int {
	for i := len(r.made) - 1; i >= 0; i-- {
		if bytes.Equal(r.made[i].key, key) {
			return i
		}
	}
	return -1
}

// The one proof of a map's bundle: field 1 has the proofs of keys that are held, field 2 those of absent ones.
func proofOf(digits string, kind byte) (*way, error) {
	bytes, err := hex.DecodeString(digits)
	if err != nil {
		return nil, err
	}
	proofs, err := fieldsOf(bytes)
	if err != nil {
		return nil, err
	}
	if len(proofs) != 1 || proofs[0].number != kind {
		return nil, errors.New("the bundle isn't one proof of its kind")
	}
	proof := &way{}
	return proof, proof.read(proofs[0].bytes)
}
