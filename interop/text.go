// Hashes as text.
package main

import (
	"bytes"
	"encoding/hex"
	"fmt"
	"strings"

	"golang.org/x/mod/sumdb/tlog"
)

func digits(hash tlog.Hash) string { return hex.EncodeToString(hash[:]) }

// The digits of a text, `-` for none.
func hexOf(text string) string {
	if text == "" {
		return "-"
	}
	return hex.EncodeToString([]byte(text))
}

// A path as bytes, one hash after the other.
func bytesOf(path []tlog.Hash) string {
	var bytes []byte
	for _, hash := range path {
		bytes = append(bytes, hash[:]...)
	}
	return hexOf(string(bytes))
}

func list(path []tlog.Hash) string {
	if len(path) == 0 {
		return "[]"
	}
	var text bytes.Buffer
	for i, hash := range path {
		if i > 0 {
			text.WriteByte(',')
		}
		text.WriteString(digits(hash))
	}
	return text.String()
}

func read(text string) ([]tlog.Hash, error) {
	if text == "[]" {
		return nil, nil
	}
	var path []tlog.Hash
	for _, word := range strings.Split(text, ",") {
		bytes, err := hex.DecodeString(word)
		if err != nil || len(bytes) != tlog.HashSize {
			return nil, fmt.Errorf("no hash: %s", word)
		}
		var hash tlog.Hash
		copy(hash[:], bytes)
		path = append(path, hash)
	}
	return path, nil
}
