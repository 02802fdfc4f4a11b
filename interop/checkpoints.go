// Checkpoint texts: those of tlog, and those that sumdb/note signed.
package main

import (
	"bytes"
	"crypto/rand"
	"encoding/hex"
	"fmt"
	"math"

	"golang.org/x/mod/sumdb/note"
	"golang.org/x/mod/sumdb/tlog"
)

const (
	checkpointTexts = 1000
	goOrigin        = "go.sum database tree"
)

// Compares what both read texts as: those that FormatTree writes, those that note signs with a key made here, and the same
// with a bit flipped.
func compareCheckpoints() {
	private, public, err := note.GenerateKey(rand.Reader, "example.com/log")
	stop(err)
	signer, err := note.NewSigner(private)
	stop(err)
	verifier, err := note.NewVerifier(public)
	stop(err)
	signed, flippedTexts := 0, 0
	for i := 0; i < checkpointTexts; i++ {
		tree := randomTree()
		text := tlog.FormatTree(tree)
		checkpointText(text, tree, "", []byte{})
		checkpointText(append(text, "more\n"...), tree, "more", []byte{})
		message, err := note.Sign(&note.Note{Text: string(text)}, signer)
		stop(err)
		signatures := message[len(text)+1:]
		checkpointText(message, tree, "", signatures)
		opened, err := note.Open(append(append(copyOf(text), '\n'), signatures...), note.VerifierList(verifier))
		stop(err)
		if opened.Text != string(text) {
			stop(fmt.Errorf("note reads another text"))
		}
		signed++
		flippedTexts += flippedText(text)
	}
	send()
	fmt.Printf("interop: %d texts of trees and %d signed ones are read as they were meant, the signatures byte for byte; %d with a bit flipped are read as tlog reads them\n",
		2*checkpointTexts, signed, flippedTexts)
}

func randomTree() tlog.Tree {
	var tree tlog.Tree
	random.Read(tree.Hash[:])
	tree.N = random.Int63n(math.MaxInt64) >> uint(random.Intn(63))
	return tree
}

// Asks for a text that has to be read as this tree, with this further line and these bytes behind it.
func checkpointText(text []byte, tree tlog.Tree, extension string, behind []byte) {
	ask("read_checkpoint_text "+hex.EncodeToString(text), answerFor(goOrigin, tree, extension, behind), nil)
}

func answerFor(origin string, tree tlog.Tree, extension string, behind []byte) string {
	extensions := "[]"
	if extension != "" {
		extensions = hexOf(extension)
	}
	return fmt.Sprintf("%s %d %s %s %s", hexOf(origin), tree.N, digits(tree.Hash), extensions, hexOf(string(behind)))
}

// Flips a bit behind the origin. Where tlog reads the text still, ours reads the same tree, unless its root is another base64
// of the same bytes, which tlog takes, and ours doesn't.
func flippedText(text []byte) int {
	other := copyOf(text)
	at := len(goOrigin) + 1 + random.Intn(len(text)-len(goOrigin)-2)
	other[at] ^= 1 << uint(random.Intn(8))
	tree, err := tlog.ParseTree(other)
	lines := bytes.Split(other, []byte("\n"))
	if err != nil || len(lines) != 4 {
		return 0
	}
	if string(lines[2]) != tree.Hash.String() {
		ask("read_checkpoint_text "+hex.EncodeToString(other), "refused Root", nil)
		return 1
	}
	checkpointText(other, tree, "", []byte{})
	return 1
}

func copyOf(text []byte) []byte { return append([]byte{}, text...) }
