// The sparse tree of a map, by its definition: 256 levels, a leaf is the digest of 00 and the value, a branch that of 01 and both
// digests below it, and where no key is a leaf is one of no bytes.
package main

import (
	"crypto/sha256"
	"errors"
	"sort"
)

const levels = 256

type digest = [sha256.Size]byte

// A key and its value, as the map holds them.
type heldKey struct{ key, leaf digest }

func leafOf(value []byte) digest { return sha256.Sum256(append([]byte{0}, value...)) }

func branchOf(left, right digest) digest {
	return sha256.Sum256(append(append([]byte{1}, left[:]...), right[:]...))
}

// The digests of the trees of no keys, by their height.
var empties = func() (digests [levels + 1]digest) {
	digests[0] = leafOf(nil)
	for height := 0; height < levels; height++ {
		digests[height+1] = branchOf(digests[height], digests[height])
	}
	return digests
}()

// A bit of a key's digest, from the root down.
func bitOf(key digest, at int) byte { return key[at/8] >> uint(7-at%8) & 1 }

// The branch over the digest below a key's bit and the one beside it.
func beside(key digest, at int, below, peer digest) digest {
	if bitOf(key, at) == 0 {
		return branchOf(below, peer)
	}
	return branchOf(peer, below)
}

// The digest of the tree over keys that share so many bits, ascending.
func sparseOf(keys []heldKey, depth int) digest {
	if len(keys) == 0 {
		return empties[levels-depth]
	}
	if depth == levels {
		return keys[0].leaf
	}
	right := sort.Search(len(keys), func(i int) bool { return bitOf(keys[i].key, depth) == 1 })
	return branchOf(sparseOf(keys[:right], depth+1), sparseOf(keys[right:], depth+1))
}

// A key's way: what is beside it at each height, the leaf's first, and its leaf digest, or that of an empty leaf.
type way struct {
	peers   [levels]digest
	leaf    digest
	isHeld  bool
	version uint64 // 1 and the index of the key's last insertion.
}

// The root to which the way leads.
func (w *way) root(key digest) digest {
	at := w.leaf
	for height, peer := range w.peers {
		at = beside(key, levels-1-height, at, peer)
	}
	return at
}

// The way of a proof's message: its peers stand from the bottom up, those that are missing are at the bottom, and an empty one stands
// for a tree of no keys.
func (w *way) read(message []byte) error {
	hashes, err := fieldsOf(message)
	if err != nil || len(hashes) > levels {
		return errors.New("the proof isn't a list of at most 256 digests")
	}
	copy(w.peers[:], empties[:])
	for i, hash := range hashes {
		inner, err := fieldsOf(hash.bytes)
		if err != nil || hash.number != 1 || len(inner) > 1 {
			return errors.New("the proof has something else than a digest")
		}
		if len(inner) == 0 {
			continue
		}
		if inner[0].number != 1 || len(inner[0].bytes) != sha256.Size {
			return errors.New("the proof has a digest that isn't 32 bytes")
		}
		copy(w.peers[levels-len(hashes)+i][:], inner[0].bytes)
	}
	return nil
}

// A field of a protobuf message.
type field struct {
	number byte
	bytes  []byte
}

// The fields of a message whose fields are bytes, with numbers below 16.
func fieldsOf(message []byte) ([]field, error) {
	var fields []field
	for len(message) > 0 {
		number, length, at := message[0]>>3, 0, 1
		for shift := uint(0); ; shift += 7 {
			if at == len(message) || shift > 21 {
				return nil, errors.New("a field has no length")
			}
			at++
			length |= int(message[at-1]&0x7f) << shift
			if message[at-1] < 0x80 {
				break
			}
		}
		if message[0]&7 != 2 || len(message)-at < length {
			return nil, errors.New("a field isn't bytes, or is cut short")
		}
		fields = append(fields, field{number, message[at : at+length]})
		message = message[at+length:]
	}
	return fields, nil
}
