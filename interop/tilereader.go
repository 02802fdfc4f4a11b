// A tlog.TileReader over a log's files.
package main

import (
	"fmt"

	"golang.org/x/mod/sumdb/tlog"
)

// The tiles of a log at one checkpoint, each read once.
type tileReader struct {
	from files
	tree tlog.Tree
	kept map[tlog.Tile][]byte
}

func (r *tileReader) Height() int { return 8 }

func (r *tileReader) ReadTiles(tiles []tlog.Tile) ([][]byte, error) {
	read := make([][]byte, len(tiles))
	for i, tile := range tiles {
		bytes, err := r.file(tile)
		if err != nil {
			return nil, err
		}
		read[i] = bytes
	}
	return read, nil
}

func (r *tileReader) SaveTiles([]tlog.Tile, [][]byte) {}

func (r *tileReader) file(tile tlog.Tile) ([]byte, error) {
	if bytes, is := r.kept[tile]; is {
		return bytes, nil
	}
	bytes, err := r.from.get(pathOf(tile))
	if err == nil {
		r.kept[tile] = bytes
	}
	return bytes, err
}

// The entry at an index, out of its bundle: each entry stands behind its length in two bytes.
func (r *tileReader) entry(index int64) []byte {
	bundle := tlog.Tile{H: 8, L: -1, N: index / 256, W: 256}
	if left := r.tree.N - 256*bundle.N; left < 256 {
		bundle.W = int(left)
	}
	bytes, err := r.file(bundle)
	stop(err)
	for skip := index % 256; ; skip-- {
		if len(bytes) < 2 || len(bytes) < 2+int(bytes[0])<<8+int(bytes[1]) {
			stop(fmt.Errorf("%s is cut short", pathOf(bundle)))
		}
		end := 2 + int(bytes[0])<<8 + int(bytes[1])
		if skip == 0 {
			return bytes[2:end]
		}
		bytes = bytes[end:]
	}
}
