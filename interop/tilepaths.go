// Paths of tiles, which in tlog have the tile's height in front.
package main

import (
	"fmt"
	"strconv"
	"strings"

	"golang.org/x/mod/sumdb/tlog"
)

const tilePaths = 20000 // So many paths, each as it is and changed in one place.

var goodPaths, badPaths int

// Compares what both read paths as: those of random tiles and bundles, and the same with a byte changed, added or left out.
func compareTilePaths() {
	for i := 0; i < tilePaths; i++ {
		path := pathOf(randomTile())
		tilePath(path)
		tilePath(changed(path))
	}
	for _, path := range []string{"", "tile", "tile/", "tile/0", "tile/0/", "tile/0/x000/000", "tile/00/000", "tile/+0/000", "tile/-1/000",
		"tile/0/000.p/256", "tile/0/000.p/0", "tile/0/000.p/01", "tile/0/000.p", "tile/0/000.p/", "tile/0/1000", "tile/0/x001/00", "tile/0//000",
		"/tile/0/000", "tile/0/000/", "tile/entries/000", "tile/entries/x001/000.p/3", "tile/data/000", "Tile/0/000"} {
		tilePath(path)
	}
	send()
	fmt.Printf("interop: of %d paths of tiles, %d good and %d bad, both read the same tiles\n", goodPaths+badPaths, goodPaths, badPaths)
}

// A random tile. tlog's numbers go up to 2^63 and ours to 2^64: these stay far below, so that a changed one does, too.
func randomTile() tlog.Tile {
	tile := tlog.Tile{H: 8, L: random.Intn(65) - 1, N: random.Int63() >> uint(5+random.Intn(58)), W: 256}
	if random.Intn(2) == 0 {
		tile.W = 1 + random.Intn(256)
	}
	return tile
}

// The path as C2SP has it: without the height, and with entries in the place of data.
func pathOf(tile tlog.Tile) string {
	path := "tile/" + strings.TrimPrefix(tile.Path(), "tile/8/")
	return strings.Replace(path, "tile/data/", "tile/entries/", 1)
}

func changed(path string) string {
	const bytes = "0123456789x./pte- +"
	at, other := random.Intn(len(path)), string(bytes[random.Intn(len(bytes))])
	switch random.Intn(3) {
	case 0:
		return path[:at] + other + path[at+1:]
	case 1:
		return path[:at] + other + path[at:]
	default:
		return path[:at] + path[at+1:]
	}
}

// Compares what both read a text as.
func tilePath(path string) {
	wanted := theirs(path)
	if wanted == "refused BadPath" {
		badPaths++
	} else {
		goodPaths++
	}
	ask("read_tile_path "+hexOf(path), wanted, nil)
}

// What tlog reads a path as, once its height stands in it. C2SP has levels up to 63, and calls the entries' tiles so.
func theirs(path string) string {
	if !strings.HasPrefix(path, "tile/") || strings.HasPrefix(path, "tile/data/") {
		return "refused BadPath"
	}
	rest := strings.TrimPrefix(path, "tile/")
	if strings.HasPrefix(rest, "entries/") {
		rest = "data/" + strings.TrimPrefix(rest, "entries/")
	}
	tile, err := tlog.ParseTilePath("tile/8/" + rest)
	if err != nil || tile.L > 63 {
		return "refused BadPath"
	}
	level := strconv.Itoa(tile.L)
	if tile.L == -1 {
		level = "entries"
	}
	return fmt.Sprintf("%s:%d:%d", level, tile.N, tile.W)
}
