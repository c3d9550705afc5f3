// Package testcerts makes certificates for tests.
package testcerts

import (
	"crypto/ecdsa"
	"crypto/elliptic"
	"crypto/rand"
	"crypto/x509"
	"crypto/x509/pkix"
	"encoding/pem"
	"math/big"
	"net"
	"os"
	"path/filepath"
	"testing"
	"time"
)

// An Authority signs certificates.
type Authority struct {
	t           testing.TB
	folder      string
	certificate *x509.Certificate
	key         *ecdsa.PrivateKey
	File        string // its certificate
}

// New makes an authority whose files are gone after the test.
func New(t testing.TB, name string) *Authority {
	t.Helper()
	a := &Authority{t: t, folder: t.TempDir()}
	a.certificate = template(name)
	a.certificate.IsCA, a.certificate.KeyUsage = true, x509.KeyUsageCertSign
	a.key = a.newKey()
	a.File = filepath.Join(a.folder, "ca.pem")
	a.write(a.File, "CERTIFICATE", a.sign(a.certificate, &a.key.PublicKey))
	return a
}

// Sign makes a certificate for 127.0.0.1, for servers and for clients, and returns its files.
func (a *Authority) Sign(name string) (certificate, key string) {
	a.t.Helper()
	own := a.newKey()
	it := template(name)
	it.IPAddresses = []net.IP{net.IPv4(127, 0, 0, 1)}
	it.ExtKeyUsage = []x509.ExtKeyUsage{x509.ExtKeyUsageServerAuth, x509.ExtKeyUsageClientAuth}
	text, err := x509.MarshalECPrivateKey(own)
	a.must(err)
	certificate, key = filepath.Join(a.folder, name+".pem"), filepath.Join(a.folder, name+".key")
	a.write(certificate, "CERTIFICATE", a.sign(it, &own.PublicKey))
	a.write(key, "EC PRIVATE KEY", text)
	return certificate, key
}

func (a *Authority) must(err error) {
	a.t.Helper()
	if err != nil {
		a.t.Fatal(err)
	}
}

func (a *Authority) newKey() *ecdsa.PrivateKey {
	a.t.Helper()
	key, err := ecdsa.GenerateKey(elliptic.P256(), rand.Reader)
	a.must(err)
	return key
}

func (a *Authority) sign(it *x509.Certificate, key *ecdsa.PublicKey) []byte {
	a.t.Helper()
	text, err := x509.CreateCertificate(rand.Reader, it, a.certificate, key, a.key)
	a.must(err)
	return text
}

func (a *Authority) write(file, kind string, text []byte) {
	a.t.Helper()
	a.must(os.WriteFile(file, pem.EncodeToMemory(&pem.Block{Type: kind, Bytes: text}), 0o600))
}

func template(name string) *x509.Certificate {
	serial, _ := rand.Int(rand.Reader, big.NewInt(1<<62)) // (never an error)
	return &x509.Certificate{SerialNumber: serial, Subject: pkix.Name{CommonName: name}, BasicConstraintsValid: true,
		NotBefore: time.Now().Add(-time.Hour), NotAfter: time.Now().Add(time.Hour)}
}
