// Calls makes the calls that it reads, one a line, and prints what came of each.
//
// A line has the call, the replica (a number from 0), and the texts in hexadecimal: `-` is an empty one, and `$` the text
// that was printed last. So two replicas can talk. Each language has such a program, and tests/library.py compares them.
package main

import (
	"bufio"
	"encoding/hex"
	"errors"
	"fmt"
	"log"
	"os"
	"strconv"
	"strings"

	"fedbundle.example/fedbundle"
)

var last []byte

func textOf(word string) []byte {
	switch word {
	case "$":
		return last
	case "-":
		return nil
	}
	text, err := hex.DecodeString(word)
	if err != nil {
		log.Fatal(err)
	}
	return text
}

// show prints what a call that writes returned.
func show(text []byte, found bool, err error) error {
	switch {
	case err != nil:
		return err
	case !found:
		fmt.Println("none")
	case len(text) == 0:
		last = text
		fmt.Println("text -")
	default:
		last = text
		fmt.Println("text", hex.EncodeToString(text))
	}
	return nil
}

// say prints what a call that counts returned.
func say(taken fedbundle.Taken, err error) error {
	switch {
	case err != nil:
		return err
	case taken.Already:
		fmt.Println("already")
	default:
		fmt.Println("done", taken.Count)
	}
	return nil
}

func found(text []byte, err error) error {
	return show(text, true, err)
}

func counted(count uint64, err error) error {
	return say(fedbundle.Taken{Count: count}, err)
}

func reported(text []byte, count uint64, err error) error {
	if err != nil {
		return err
	}
	last = text
	fmt.Println("counted", count, hex.EncodeToString(text))
	return nil
}

func call(replicas map[string]*fedbundle.Replica, words []string) error {
	name, r := words[0], replicas[words[1]]
	arg := func(i int) []byte { return textOf(words[i+2]) }
	switch name {
	case "canon":
		return found(fedbundle.Canon(string(arg(0)), arg(1)))
	case "report_of":
		return reported(fedbundle.Report(arg(0), arg(1)))
	}
	if r == nil && name != "open" && name != "close" {
		return &fedbundle.Error{Code: fedbundle.Usage, Text: "usage"}
	}
	switch name {
	case "open":
		opened, err := fedbundle.Open(arg(0), arg(1))
		if err == nil {
			replicas[words[1]] = opened
		}
		return say(fedbundle.Taken{}, err)
	case "close":
		if r != nil {
			r.Close()
		}
		delete(replicas, words[1])
		return say(fedbundle.Taken{}, nil)
	case "take":
		return say(r.Take(arg(0)))
	case "distrust":
		return say(r.Distrust(string(arg(0)), string(arg(1))))
	case "merge":
		return counted(r.Merge(arg(0)))
	case "absorb":
		return counted(r.Absorb(arg(0)))
	case "observe":
		return found(r.Observe(string(arg(0)), string(arg(1)), string(arg(2)), arg(3)))
	case "current":
		return show(r.Current(string(arg(0))))
	case "explain":
		return show(r.Explain(string(arg(0)), arg(1)))
	case "report":
		return found(r.Report())
	case "snapshot":
		return found(r.Snapshot())
	case "answer":
		return found(r.Answer(arg(0)))
	case "have":
		bucket, err := strconv.ParseUint(words[2], 10, 8)
		if err != nil {
			log.Fatal(err)
		}
		return found(r.Have(uint8(bucket)))
	}
	log.Fatal("no such call: ", name)
	return nil
}

func main() {
	replicas := map[string]*fedbundle.Replica{}
	lines := bufio.NewScanner(os.Stdin)
	lines.Buffer(nil, 1<<28)
	for lines.Scan() {
		var refused *fedbundle.Error
		if err := call(replicas, strings.Fields(lines.Text())); errors.As(err, &refused) {
			fmt.Println("refused", refused.Code, refused.Text)
		} else if err != nil {
			log.Fatal(err)
		}
	}
	if err := lines.Err(); err != nil {
		log.Fatal(err)
	}
}
