package client

import (
	"crypto/sha256"
	"crypto/x509"
	"encoding/base64"
	"encoding/hex"
	"encoding/json"
	"errors"
	"fmt"
)

// Bundle is the current bundle of a trust domain, in the forms that go-spiffe takes: spiffebundle.Parse reads Document,
// and x509bundle.FromX509Authorities takes X509Authorities.
type Bundle struct {
	// Domain is the trust domain.
	Domain string
	// ID is the document id: the SHA-256 of the domain, a line feed and the document, in hexadecimal.
	ID string
	// Document is the bundle's canonical JSON.
	Document []byte
	// Sequence is its sequence number, or nil if it has none.
	Sequence *uint64
	// RefreshHint is its refresh hint in seconds, or nil if it has none.
	RefreshHint *uint64
	// X509Authorities are the certificates of its X.509 authorities, in the order of the document. A key that is
	// distrusted vouches for no later bundle; its certificate is here as long as the domain publishes it.
	X509Authorities []*x509.Certificate
}

// element is what is read of an element of a document.
type element struct {
	Use string   `json:"use"`
	X5C []string `json:"x5c"`
}

// ParseBundle reads the canonical JSON of a bundle, as Client.Bundle returns it. The code is BadReply if it is not a
// bundle, or if package x509 does not read a certificate in it: then none of its authorities is returned.
func ParseBundle(domain string, document []byte) (*Bundle, error) {
	var said struct {
		Keys        []element `json:"keys"`
		RefreshHint *uint64   `json:"spiffe_refresh_hint"`
		Sequence    *uint64   `json:"spiffe_sequence"`
	}
	if err := json.Unmarshal(document, &said); err != nil {
		return nil, badReply(fmt.Errorf("the bundle of %s: %w", domain, err))
	}
	if said.Keys == nil {
		return nil, badReply(fmt.Errorf("the bundle of %s has no keys", domain))
	}
	authorities, err := x509Authorities(said.Keys)
	if err != nil {
		return nil, badReply(fmt.Errorf("the bundle of %s: %w", domain, err))
	}
	return &Bundle{Domain: domain, ID: documentID(domain, document), Document: document, Sequence: said.Sequence,
		RefreshHint: said.RefreshHint, X509Authorities: authorities}, nil
}

func x509Authorities(elements []element) ([]*x509.Certificate, error) {
	var authorities []*x509.Certificate
	for _, element := range elements {
		if element.Use != "x509-svid" {
			continue
		}
		if len(element.X5C) != 1 {
			return nil, errors.New("an X.509 authority does not have one certificate")
		}
		der, err := base64.StdEncoding.DecodeString(element.X5C[0])
		if err != nil {
			return nil, err
		}
		certificate, err := x509.ParseCertificate(der)
		if err != nil {
			return nil, err
		}
		authorities = append(authorities, certificate)
	}
	return authorities, nil
}

func documentID(domain string, document []byte) string {
	digest := sha256.New()
	digest.Write([]byte(domain + "\n"))
	digest.Write(document)
	return hex.EncodeToString(digest.Sum(nil))
}
