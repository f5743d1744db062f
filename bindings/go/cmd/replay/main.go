// Command replay replays recorded files, and prints what the program `replay` prints.
//
//	replay FILE..
//
// The file at index p, counted from 0, has the batches of proxy p.
package main

import (
	"archcaraway"
	"errors"
	"fmt"
	"os"
	"sort"
	"strings"
)

// The faults of files have been printed.
var errFault = errors.New("a file has a fault")

// Takes one batch of each file in turn, to the end of all files or to their faults. Returns the
// stop, if the core meets one.
func admitAll(core *archcaraway.Core, inputs [][]byte, faults []error) error {
	for more := true; more; {
		more = false
		for proxy := range inputs {
			if len(inputs[proxy]) == 0 || faults[proxy] != nil {
				continue
			}
			more = true
			frame, rest, err := archcaraway.NextFrame(inputs[proxy])
			if err == nil {
				err = core.Admit(uint32(proxy), frame)
			}
			if stop := core.Stop(); stop != nil {
				return stop
			}
			inputs[proxy], faults[proxy] = rest, err
		}
	}
	return core.Finish()
}

func takeAnswers(core *archcaraway.Core, proxy uint32) ([]archcaraway.Answer, error) {
	var answers []archcaraway.Answer
	for {
		answer, err := core.Give(proxy)
		if err != nil || answer.Kind == archcaraway.Nothing {
			sort.SliceStable(answers, func(i, j int) bool {
				return answers[i].Version < answers[j].Version
			})
			return answers, err
		}
		answers = append(answers, answer)
	}
}

func text(answer archcaraway.Answer) (string, error) {
	if answer.Kind != archcaraway.HasReply {
		words := map[archcaraway.Kind]string{archcaraway.Never: "never", archcaraway.Held: "held"}
		return words[answer.Kind], nil
	}
	reply, err := archcaraway.ReadReply(answer.Frame)
	if err != nil || len(reply.Entries) == 0 {
		return "empty", err
	}
	words := []string{"conflict", "tooold", "committed"}
	var said []string
	for _, entry := range reply.Entries {
		word, between := words[entry.Verdict], ":"
		for _, index := range entry.Conflicts {
			word += fmt.Sprint(between, index)
			between = ","
		}
		said = append(said, word)
	}
	return strings.Join(said, " "), nil
}

func printAnswers(core *archcaraway.Core, proxies int) error {
	for proxy := 0; proxy < proxies; proxy++ {
		answers, err := takeAnswers(core, uint32(proxy))
		if err != nil {
			return err
		}
		for _, answer := range answers {
			said, err := text(answer)
			if err != nil {
				return err
			}
			fmt.Println(proxy, answer.Version, said)
		}
	}
	return nil
}

// Prints the part of an error that `replay` prints.
func printError(before string, err error) {
	said, _, _ := strings.Cut(err.Error(), ":")
	fmt.Fprintf(os.Stderr, "replay: %s%s\n", before, said)
}

func run(paths []string) error {
	core, err := archcaraway.NewCore(uint32(len(paths)), archcaraway.Window, archcaraway.Limit)
	if err != nil {
		return err
	}
	defer core.Close()
	inputs, faults := make([][]byte, len(paths)), make([]error, len(paths))
	for proxy, path := range paths {
		if inputs[proxy], err = os.ReadFile(path); err != nil {
			return err
		}
	}
	stop := admitAll(core, inputs, faults)
	if err := printAnswers(core, len(paths)); err != nil {
		return err
	}
	for proxy, fault := range faults {
		if fault != nil {
			printError(fmt.Sprintf("proxy %d: ", proxy), fault)
			err = errFault
		}
	}
	if stop != nil {
		return stop
	}
	return err
}

func main() {
	err := run(os.Args[1:])
	if err != nil && err != errFault {
		printError("", err)
	}
	if err != nil {
		os.Exit(1)
	}
}
