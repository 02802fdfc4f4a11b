// Check answers the check lines of the vectors (docs/VECTORS.md) through the package: a line in, a line out.
//
//	go build -o check . && ./check < lines
package main

import (
	"bufio"
	"encoding/hex"
	"fmt"
	"log"
	"os"
	"strconv"
	"strings"

	"warg"
)

// names are the refusals as the vectors say them.
var names = map[warg.Refusal]string{
	warg.OutOfMemory:    "Memory",
	warg.NoSuchProof:    "NoSuchProof",
	warg.Truncated:      "Decode(Wire(Truncated))",
	warg.BadVarint:      "Decode(Wire(BadVarint))",
	warg.BadTag:         "Decode(Wire(BadTag))",
	warg.Group:          "Decode(Wire(Group))",
	warg.BadWireType:    "Decode(Wire(BadWireType))",
	warg.WrongWireType:  "Decode(Wire(WrongWireType))",
	warg.NumberTooLarge: "Decode(Wire(NumberTooLarge))",
	warg.HashLength:     "Decode(HashLength)",
	warg.NotAscending:   "Decode(NotAscending)",
	warg.TooManyPeers:   "Decode(TooManyPeers)",
}

// words are the words of a line behind its call, read one by one.
type words []string

func (left *words) next() string {
	word := (*left)[0]
	*left = (*left)[1:]
	return word
}

func (left *words) bytes() []byte {
	read, err := hex.DecodeString(strings.Trim(left.next(), "-"))
	if err != nil {
		log.Fatal(err)
	}
	return read
}

func (left *words) number() uint64 {
	read, err := strconv.ParseUint(left.next(), 10, 64)
	if err != nil {
		log.Fatal(err)
	}
	return read
}

func (left *words) checkpoint() warg.Checkpoint {
	length := left.number()
	return warg.Checkpoint{Length: length, Root: left.bytes()}
}

func verdict(call string, given words) (bool, error) {
	first := given.bytes()
	switch call {
	case "check_entry":
		place, index, value := given.number(), given.number(), given.bytes()
		return warg.CheckEntry(first, place, index, value, given.checkpoint())
	case "check_growth":
		place, old := given.number(), given.checkpoint()
		return warg.CheckGrowth(first, place, old, given.checkpoint())
	case "check_inclusion":
		place, value := given.number(), given.bytes()
		return warg.CheckInclusion(first, place, value, given.bytes())
	case "check_consistency":
		place, old := given.number(), given.bytes()
		return warg.CheckConsistency(first, place, old, given.bytes())
	case "check_key":
		place, key, value := given.number(), given.bytes(), given.bytes()
		return warg.CheckKey(first, place, key, value, given.bytes())
	case "check_absent":
		place, key := given.number(), given.bytes()
		return warg.CheckAbsent(first, place, key, given.bytes())
	case "check_update":
		place, key, oldValue, newValue, oldRoot := given.number(), given.bytes(), given.bytes(), given.bytes(), given.bytes()
		return warg.CheckUpdate(first, place, key, oldValue, newValue, oldRoot, given.bytes())
	case "check_insertion":
		place, key, value, oldRoot := given.number(), given.bytes(), given.bytes(), given.bytes()
		return warg.CheckInsertion(first, place, key, value, oldRoot, given.bytes())
	case "check_record":
		index, value := given.number(), given.bytes()
		return warg.CheckRecord(first, index, value, given.checkpoint())
	case "check_tree":
		old := given.checkpoint()
		return warg.CheckTree(first, old, given.checkpoint())
	}
	log.Fatalf("no call is named %s", call)
	return false, nil
}

func answer(line string) string {
	split := strings.Split(line, " ")
	holds, err := verdict(split[0], words(split[1:]))
	refusal, refused := err.(warg.Refusal)
	switch {
	case refused && refusal == warg.RootLength:
		return "bad call"
	case refused && refusal == warg.HashLength && (split[0] == "check_record" || split[0] == "check_tree"):
		return "refused HashLength"
	case refused:
		return "refused " + names[refusal]
	}
	return strconv.FormatBool(holds)
}

func main() {
	lines := bufio.NewScanner(os.Stdin)
	lines.Buffer(nil, 1<<26)
	for lines.Scan() {
		fmt.Println(answer(lines.Text()))
	}
	if err := lines.Err(); err != nil {
		log.Fatal(err)
	}
}
