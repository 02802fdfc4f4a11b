// The pages of a map, as a registry serves them, read from their format alone.
package main

import (
	"encoding/binary"
	"errors"
	"fmt"
)

// A slot of a page: the version and the digest of what stands below it, and the key that stands there alone.
type slot struct {
	version uint64
	digest  digest
	lone    *heldKey
}

// The slots of a page, by their byte.
func slotsOf(page []byte) (map[byte]slot, error) {
	slots, last := map[byte]slot{}, -1
	for len(page) > 0 {
		if len(page) < 42 || int(page[0]) <= last || page[1] > 1 {
			return nil, errors.New("the bytes aren't slots that ascend")
		}
		found, isLone := slot{version: binary.BigEndian.Uint64(page[2:])}, page[1] == 1
		last = int(page[0])
		copy(found.digest[:], page[10:])
		page = page[42:]
		if isLone && len(page) < 64 {
			return nil, errors.New("a lone key is cut short")
		}
		if isLone {
			found.lone = &heldKey{*(*digest)(page[:32]), *(*digest)(page[32:64])}
			page = page[64:]
		}
		slots[byte(last)] = found
	}
	return slots, nil
}

// The digests of a page's tree: number 1 is the root, those below number n are 2 n and 2 n + 1, and the slots are 256 to 511.
func treeOf(slots map[byte]slot, height int) (tree [512]digest) {
	for i := 0; i < 256; i++ {
		tree[256+i] = empties[height]
		if found, is := slots[byte(i)]; is {
			tree[256+i] = found.digest
		}
	}
	for i := 255; i > 0; i-- {
		tree[i] = branchOf(tree[2*i], tree[2*i+1])
	}
	return tree
}

// Follows a key's digest down the pages, from a map's root and its version.
func wayTo(key, root digest, version uint64, page func(path string) ([]byte, error)) (*way, error) {
	found := &way{leaf: empties[0]}
	copy(found.peers[:], empties[:])
	if version == 0 {
		return found, nil
	}
	for prefix, depth := "map/", 0; depth < 32; depth++ {
		path, height := prefix+fmt.Sprint(version), 248-8*depth
		bytes, err := page(path)
		if err != nil {
			return nil, err
		}
		slots, err := slotsOf(bytes)
		if err != nil {
			return nil, fmt.Errorf("%s: %v", path, err)
		}
		tree := treeOf(slots, height)
		if tree[1] != root {
			return nil, fmt.Errorf("%s has another digest than what names it", path)
		}
		for at, up := 256+int(key[depth]), height; at > 1; at, up = at/2, up+1 {
			found.peers[up] = tree[at^1]
		}
		next, is := slots[key[depth]]
		if !is {
			return found, nil
		}
		if next.lone != nil {
			return found, found.endAt(key, next, height)
		}
		prefix, root, version = fmt.Sprintf("%sx%02x/", prefix, key[depth]), next.digest, next.version
	}
	return nil, errors.New("no page has a lone key on the way")
}

// The way's end, where one key stands below a slot of this height: the key itself, or another one beside it.
func (w *way) endAt(key digest, below slot, height int) error {
	alone := [levels + 1]digest{below.lone.leaf}
	for up := 0; up < height; up++ {
		alone[up+1] = beside(below.lone.key, levels-1-up, alone[up], empties[up])
	}
	if alone[height] != below.digest {
		return errors.New("a lone key doesn't lead to its slot's digest")
	}
	if below.lone.key == key {
		w.leaf, w.isHeld, w.version = below.lone.leaf, true, below.version
		return nil
	}
	for at := levels - height; at < levels; at++ {
		if bitOf(below.lone.key, at) != bitOf(key, at) {
			w.peers[levels-1-at] = alone[levels-1-at]
			return nil
		}
	}
	return errors.New("the lone key differs above its slot")
}
