// Report prints what the receipts of the second file make a replica of the configuration in the first one accept.
package main

import (
	"bytes"
	"errors"
	"log"
	"os"

	"fedbundle.example/fedbundle"
)

func report(config, lines []byte) ([]byte, error) {
	replica, err := fedbundle.Open(config, nil)
	if err != nil {
		return nil, err
	}
	defer replica.Close()
	for _, line := range bytes.Split(bytes.TrimSuffix(lines, []byte("\n")), []byte("\n")) {
		_, err := replica.Take(line)
		var refused *fedbundle.Error
		if errors.As(err, &refused) {
			log.Print(refused.Code, " ", refused.Text) // -501 G1 UnknownDomain
		}
	}
	return replica.Report()
}

func main() {
	config, err := os.ReadFile(os.Args[1])
	if err != nil {
		log.Fatal(err)
	}
	lines, err := os.ReadFile(os.Args[2])
	if err != nil {
		log.Fatal(err)
	}
	text, err := report(config, lines)
	if err != nil {
		log.Fatal(err)
	}
	os.Stdout.Write(text)
}
