// Program etcd makes the same requests of an etcd or of a replica of fedbundle, and prints how long they took.
//
//	etcd write|read etcd ADDRESS BUNDLES CLIENTS COUNT
//	etcd write|read fedbundle SOCKET BUNDLES CLIENTS COUNT DOMAIN ENDPOINT KEY
//
// BUNDLES has a bundle a line. Each of CLIENTS clients keeps its connection and makes COUNT requests. A write has one of the
// bundles, which none other has; a read asks for the bundle of the domain. It prints the requests of all clients in a
// second, and the median and the 99th percentile of their times in milliseconds.
package main

import (
	"bytes"
	"context"
	"fmt"
	"log"
	"os"
	"sort"
	"strconv"
	"sync"
	"time"

	"fedbundle.example/fedbundle/client"
	"go.etcd.io/etcd/clientv3"
)

// store is one client of what is measured.
type store interface {
	write(ctx context.Context, number int, bundle []byte) error
	read(ctx context.Context) error
}

type etcd struct {
	*clientv3.Client
}

// Each bundle has a key of its own, as a replica keeps each document.
func (e etcd) write(ctx context.Context, number int, bundle []byte) error {
	_, err := e.Put(ctx, fmt.Sprintf("bundles/%08d", number), string(bundle))
	return err
}

func (e etcd) read(ctx context.Context) error {
	found, err := e.Get(ctx, "bundles/00000000")
	if err == nil && len(found.Kvs) != 1 {
		return fmt.Errorf("%d bundles", len(found.Kvs))
	}
	return err
}

type replica struct {
	*client.Client
	domain, endpoint, key string
}

func (r replica) write(ctx context.Context, _ int, bundle []byte) error {
	_, err := r.Observe(ctx, r.domain, r.endpoint, r.key, bundle)
	return err
}

func (r replica) read(ctx context.Context) error {
	_, err := r.Bundle(ctx, r.domain)
	return err
}

func connect(words []string) store {
	switch {
	case words[0] == "etcd" && len(words) == 5:
		c, err := clientv3.New(clientv3.Config{Endpoints: []string{words[1]}, DialTimeout: 5 * time.Second})
		if err != nil {
			log.Fatal(err)
		}
		return etcd{c}
	case words[0] == "fedbundle" && len(words) == 8:
		return replica{client.New(words[1]), words[5], words[6], words[7]}
	}
	log.Fatal("the words are not those of the first comment")
	return nil
}

func number(word string) int {
	n, err := strconv.Atoi(word)
	if err != nil {
		log.Fatal(err)
	}
	return n
}

func main() {
	if len(os.Args) < 7 {
		log.Fatal("the words are not those of the first comment")
	}
	does, words := os.Args[1], os.Args[2:]
	text, err := os.ReadFile(words[2])
	if err != nil {
		log.Fatal(err)
	}
	bundles := bytes.Split(bytes.TrimSpace(text), []byte("\n"))
	clients, count := number(words[3]), number(words[4])
	if does == "write" && clients*count > len(bundles) {
		log.Fatalf("%d bundles are too few", len(bundles))
	}
	stores := make([]store, clients)
	for i := range stores {
		stores[i] = connect(words)
		// The connection is made before the clock runs.
		if err := stores[i].read(context.Background()); err != nil && does == "read" {
			log.Fatal(err)
		}
	}
	times := make([]time.Duration, clients*count)
	var all sync.WaitGroup
	begun := time.Now()
	for i := range stores {
		all.Add(1)
		go func(own store, first int) {
			defer all.Done()
			for n := first; n < first+count; n++ {
				at := time.Now()
				err := error(nil)
				if does == "write" {
					err = own.write(context.Background(), n, bundles[n])
				} else {
					err = own.read(context.Background())
				}
				if err != nil {
					log.Fatal(err)
				}
				times[n] = time.Since(at)
			}
		}(stores[i], i*count)
	}
	all.Wait()
	took := time.Since(begun)
	sort.Slice(times, func(i, j int) bool { return times[i] < times[j] })
	ms := func(t time.Duration) float64 { return float64(t.Microseconds()) / 1000 }
	fmt.Printf("%.0f %.3f %.3f\n", float64(len(times))/took.Seconds(), ms(times[len(times)/2]), ms(times[len(times)*99/100]))
}
