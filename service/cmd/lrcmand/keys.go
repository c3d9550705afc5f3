package main

import (
	"crypto/tls"
	"crypto/x509"
	"fmt"
	"os"
	"sync"

	"lrcman/service/internal/logging"
)

// keys are what the port for clients shows, and whose certificates it takes. The certificate is read anew at each handshake, and the
// authority when it is asked for. Where they can't be used, as in the middle of a rotation, the last ones stay.
type keys struct {
	certFile, keyFile, clientCA string
	log                         *logging.Logger
	mu                          sync.Mutex
	pair                        *tls.Certificate
	clients                     *x509.CertPool // nil: no certificates are asked for
	told                        string         // the last fault
}

// newKeys reads them for the first time.
func newKeys(certFile, keyFile, clientCA string, logger *logging.Logger) (*keys, error) {
	k := &keys{certFile: certFile, keyFile: keyFile, clientCA: clientCA, log: logger}
	if err := k.reread(); err != nil {
		return nil, err
	}
	return k, nil
}

// reread reads all of them anew.
func (k *keys) reread() error {
	pair, err := tls.LoadX509KeyPair(k.certFile, k.keyFile)
	if err != nil {
		return fmt.Errorf("%s, %s: %w", k.certFile, k.keyFile, err)
	}
	clients, err := k.readClients()
	if err != nil {
		return err
	}
	k.mu.Lock()
	defer k.mu.Unlock()
	k.pair, k.clients = &pair, clients
	return nil
}

func (k *keys) readClients() (*x509.CertPool, error) {
	if k.clientCA == "" {
		return nil, nil
	}
	text, err := os.ReadFile(k.clientCA)
	if err != nil {
		return nil, err
	}
	pool := x509.NewCertPool()
	if !pool.AppendCertsFromPEM(text) {
		return nil, fmt.Errorf("%s has no certificate", k.clientCA)
	}
	return pool, nil
}

// config is what TLS takes.
func (k *keys) config() *tls.Config {
	config := &tls.Config{MinVersion: tls.VersionTLS12, GetCertificate: k.certificate}
	if k.clientCA != "" {
		config.ClientAuth, config.GetConfigForClient = tls.RequireAndVerifyClientCert, func(*tls.ClientHelloInfo) (*tls.Config, error) {
			now := config.Clone()
			k.mu.Lock()
			defer k.mu.Unlock()
			now.ClientCAs = k.clients
			return now, nil
		}
	}
	return config
}

// certificate is the one that is shown.
func (k *keys) certificate(*tls.ClientHelloInfo) (*tls.Certificate, error) {
	pair, err := tls.LoadX509KeyPair(k.certFile, k.keyFile)
	k.mu.Lock()
	defer k.mu.Unlock()
	switch {
	case err == nil:
		k.pair, k.told = &pair, ""
	case err.Error() != k.told:
		k.told = err.Error()
		k.log.Error("the certificate that was read before is shown", "cert", k.certFile, "key", k.keyFile, "error", err)
	}
	return k.pair, nil
}
