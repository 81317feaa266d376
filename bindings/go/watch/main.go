// Watch prints the current bundles of the running replica whose socket is named, and then each that changes, until it is
// interrupted: the trust domain, the document id, and the key ids of the X.509 authorities.
package main

import (
	"context"
	"crypto/sha256"
	"fmt"
	"log"
	"os"
	"os/signal"
	"time"

	"fedbundle.example/fedbundle/client"
)

func watch(ctx context.Context, replica *client.Client) {
	for update := range replica.Watch(ctx, client.WatchOptions{Every: time.Second}) {
		switch {
		case update.Err != nil:
			log.Print(update.Err) // fedbundle: no replica: ..
		case update.Bundle == nil:
			fmt.Println(update.Domain, "none")
		default:
			fmt.Println(update.Domain, update.Bundle.ID, keys(update.Bundle))
		}
	}
}

func keys(bundle *client.Bundle) []string {
	var ids []string
	for _, certificate := range bundle.X509Authorities {
		ids = append(ids, fmt.Sprintf("%x", sha256.Sum256(certificate.Raw)))
	}
	return ids
}

func main() {
	ctx, stop := signal.NotifyContext(context.Background(), os.Interrupt)
	defer stop()
	watch(ctx, client.New(os.Args[1]))
}
