// Calls of warg_vectors (docs/VECTORS.md). They are gathered, and go to it together.
package main

import (
	"fmt"
	"os"
	"os/exec"
	"strconv"
	"strings"

	"golang.org/x/mod/sumdb/tlog"
)

const batch = 20000 // So many calls go to one run of the program.

// The program that answers calls, and the one that keeps a log.
var program, logProgram string

type call struct {
	line, wanted string
	judge        func(answer string) error
}

var calls []call

func gather(line, wanted string, judge func(string) error) {
	calls = append(calls, call{line, wanted, judge})
	if len(calls) == batch {
		send()
	}
}

// Gathers a call with the answer that is wanted, unless something is wrong already.
func ask(line, wanted string, err error) {
	stop(err)
	gather(line, wanted, nil)
}

// Gathers a call whose answer is judged.
func askJudged(line string, judge func(string) error) { gather(line, "", judge) }

// Gathers a call for a path, which is the one that is wanted, and is accepted as our side spells it.
func askPath(line string, path []tlog.Hash, check func([]tlog.Hash) error) {
	gather(line, list(path), func(answer string) error {
		ours, err := read(answer)
		if err != nil {
			return err
		}
		return check(ours)
	})
}

// Gathers a call for a verdict, which is to be that of Go's side.
func askVerdict(line string, err error) {
	if err == nil {
		accepted++
	} else {
		refused++
	}
	gather(line, strconv.FormatBool(err == nil), nil)
}

// Sends what was gathered to a new run of the program, and compares its answers.
func send() {
	if len(calls) == 0 {
		return
	}
	lines := make([]string, len(calls))
	for i, call := range calls {
		lines[i] = call.line
	}
	answers := run(program, lines)
	for i, call := range calls {
		if call.wanted != "" && answers[i] != call.wanted {
			differ(call.line, answers[i], call.wanted)
		}
		if call.judge == nil {
			continue
		}
		if err := call.judge(answers[i]); err != nil {
			differ(call.line, answers[i], err.Error())
		}
	}
	calls = nil
}

// Runs a program on lines, and returns its answers. Both pipes are served at once, so neither side waits for ever.
func run(program string, lines []string) []string {
	command := exec.Command(program)
	command.Stdin = strings.NewReader(strings.Join(lines, "\n") + "\n")
	command.Stderr = os.Stderr
	output, err := command.Output()
	stop(err)
	answers := strings.Split(strings.TrimSuffix(string(output), "\n"), "\n")
	if len(answers) != len(lines) {
		stop(fmt.Errorf("%d answers to %d calls", len(answers), len(lines)))
	}
	return answers
}
