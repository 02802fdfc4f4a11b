// Package warg judges the proofs of transparency logs and maps, from their bytes, under SHA-256.
//
// Each call returns a verdict, or a Refusal that says why there is none. The package needs cgo, and links libwarg.a, which
// lies beside it with its header warg.h. A program that uses it says in its go.mod where it is:
//
//	require warg v0.0.0
//	replace warg => /usr/local/share/warg/go
package warg

/*
#cgo CFLAGS: -I${SRCDIR}
#cgo LDFLAGS: ${SRCDIR}/libwarg.a
#include "warg.h"
*/
import "C"

import "unsafe"

// A Refusal says why there is no verdict: one of the negative numbers of warg.h.
type Refusal int32

// The refusals.
const (
	OutOfMemory    Refusal = C.WARG_OUT_OF_MEMORY
	NoSuchProof    Refusal = C.WARG_NO_SUCH_PROOF
	RootLength     Refusal = C.WARG_ROOT_LENGTH
	Truncated      Refusal = C.WARG_TRUNCATED
	BadVarint      Refusal = C.WARG_BAD_VARINT
	BadTag         Refusal = C.WARG_BAD_TAG
	Group          Refusal = C.WARG_GROUP
	BadWireType    Refusal = C.WARG_BAD_WIRE_TYPE
	WrongWireType  Refusal = C.WARG_WRONG_WIRE_TYPE
	NumberTooLarge Refusal = C.WARG_NUMBER_TOO_LARGE
	HashLength     Refusal = C.WARG_HASH_LENGTH
	NotAscending   Refusal = C.WARG_NOT_ASCENDING
	TooManyPeers   Refusal = C.WARG_TOO_MANY_PEERS
)

// Error returns what the refusal means, in a few words.
func (refusal Refusal) Error() string {
	return C.GoString(C.warg_text(C.int32_t(refusal)))
}

// A Checkpoint is a log's length, in entries, and its root.
type Checkpoint struct {
	Length uint64
	Root   []byte
}

// none is what a pointer to no bytes points to: the library takes no null pointer.
var none [1]byte

func at(given []byte) *C.uint8_t {
	if len(given) == 0 {
		return (*C.uint8_t)(unsafe.Pointer(&none[0]))
	}
	return (*C.uint8_t)(unsafe.Pointer(&given[0]))
}

func count(given []byte) C.size_t {
	return C.size_t(len(given))
}

func verdict(number C.int32_t) (bool, error) {
	if number < 0 {
		return false, Refusal(number)
	}
	return number == C.WARG_TRUE, nil
}

// CheckEntry says whether the inclusion proof at a place of a log bundle shows that the log with this checkpoint has the
// value at the index. Places and indices count from 0.
func CheckEntry(bundle []byte, place, index uint64, value []byte, log Checkpoint) (bool, error) {
	return verdict(C.warg_check_entry(at(bundle), count(bundle), C.size_t(place), C.size_t(index),
		at(value), count(value), C.size_t(log.Length), at(log.Root), count(log.Root)))
}

// CheckGrowth says whether the consistency proof at a place of a log bundle shows that the log with the old checkpoint is
// a beginning of the one with the new checkpoint. From an empty log it is false.
func CheckGrowth(bundle []byte, place uint64, old, new Checkpoint) (bool, error) {
	return verdict(C.warg_check_growth(at(bundle), count(bundle), C.size_t(place),
		C.size_t(old.Length), at(old.Root), count(old.Root), C.size_t(new.Length), at(new.Root), count(new.Root)))
}

// CheckInclusion says whether the inclusion proof at a place of a log bundle leads from the value to the root. It checks
// neither the log's length nor the entry's index.
func CheckInclusion(bundle []byte, place uint64, value, root []byte) (bool, error) {
	return verdict(C.warg_check_inclusion(at(bundle), count(bundle), C.size_t(place),
		at(value), count(value), at(root), count(root)))
}

// CheckConsistency says whether the consistency proof at a place of a log bundle leads to the two roots. It checks no
// length.
func CheckConsistency(bundle []byte, place uint64, old, new []byte) (bool, error) {
	return verdict(C.warg_check_consistency(at(bundle), count(bundle), C.size_t(place),
		at(old), count(old), at(new), count(new)))
}

// CheckKey says whether the proof at a place of a map bundle shows that the map with this root holds the value under the
// key.
func CheckKey(bundle []byte, place uint64, key, value, root []byte) (bool, error) {
	return verdict(C.warg_check_key(at(bundle), count(bundle), C.size_t(place),
		at(key), count(key), at(value), count(value), at(root), count(root)))
}

// CheckAbsent says whether the absence at a place of a map bundle shows that the map with this root holds nothing under
// the key, or a value without bytes.
func CheckAbsent(bundle []byte, place uint64, key, root []byte) (bool, error) {
	return verdict(C.warg_check_absent(at(bundle), count(bundle), C.size_t(place), at(key), count(key), at(root), count(root)))
}

// CheckUpdate says whether the proof at a place of a map bundle shows that the map with the new root is the one with the
// old root, with the new value under the key in place of the old one.
func CheckUpdate(bundle []byte, place uint64, key, oldValue, newValue, oldRoot, newRoot []byte) (bool, error) {
	return verdict(C.warg_check_update(at(bundle), count(bundle), C.size_t(place), at(key), count(key),
		at(oldValue), count(oldValue), at(newValue), count(newValue),
		at(oldRoot), count(oldRoot), at(newRoot), count(newRoot)))
}

// CheckInsertion says whether the absence at a place of a map bundle shows that the map with the new root is the one with
// the old root, and the value under a key that had none, or one without bytes.
func CheckInsertion(bundle []byte, place uint64, key, value, oldRoot, newRoot []byte) (bool, error) {
	return verdict(C.warg_check_insertion(at(bundle), count(bundle), C.size_t(place), at(key), count(key),
		at(value), count(value), at(oldRoot), count(oldRoot), at(newRoot), count(newRoot)))
}

// CheckRecord says whether an inclusion path shows that the log with this checkpoint has the value at the index. A path is
// its digests, 32 bytes each, from the bottom up (RFC 6962, section 2.1.1).
func CheckRecord(path []byte, index uint64, value []byte, log Checkpoint) (bool, error) {
	return verdict(C.warg_check_record(at(path), count(path), C.size_t(index),
		at(value), count(value), C.size_t(log.Length), at(log.Root), count(log.Root)))
}

// CheckTree says whether a consistency path shows that the log with the old checkpoint is a beginning of the one with the
// new checkpoint (RFC 6962, section 2.1.2). From an empty log it is false.
func CheckTree(path []byte, old, new Checkpoint) (bool, error) {
	return verdict(C.warg_check_tree(at(path), count(path), C.size_t(old.Length), at(old.Root), count(old.Root),
		C.size_t(new.Length), at(new.Root), count(new.Root)))
}

// Version returns the library's version, a byte for each number: 0.9.2-rattle.1 is 0x00090201.
func Version() uint32 {
	return uint32(C.warg_version())
}
