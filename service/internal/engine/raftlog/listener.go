package raftlog

import (
	"context"
	"crypto/tls"
	"crypto/x509"
	"fmt"
	"net"
	"strings"
	"sync"
)

// listen opens the port for the other members.
func (n *Node) listen() (net.Listener, error) {
	var config *tls.Config
	if !n.cfg.TLS.Empty() {
		var err error
		if config, err = n.tlsConfig(); err != nil {
			return nil, err
		}
	}
	inner, err := net.Listen("tcp", n.cfg.Listen)
	if err != nil {
		return nil, err
	}
	listener := &limited{inner, make(chan struct{}, mostConnections)}
	if config == nil {
		return listener, nil
	}
	return tls.NewListener(listener, config), nil
}

// limited closes connections over its limit at once, so that nobody waits behind those that say nothing.
type limited struct {
	net.Listener
	open chan struct{}
}

func (l *limited) Accept() (net.Conn, error) {
	for {
		c, err := l.Listener.Accept()
		if err != nil {
			return nil, err
		}
		select {
		case l.open <- struct{}{}:
			return &counted{Conn: c, open: l.open}, nil
		default:
			c.Close()
		}
	}
}

type counted struct {
	net.Conn
	once sync.Once
	open chan struct{}
}

func (c *counted) Close() error {
	c.once.Do(func() { <-c.open })
	return c.Conn.Close()
}

// tlsConfig asks each who connects for a certificate: one of the authority of members, for the address that it comes from, and
// with one of the names, if there are some.
func (n *Node) tlsConfig() (*tls.Config, error) {
	config, err := n.cfg.TLS.ServerConfig()
	if err != nil {
		return nil, err
	}
	config.ClientAuth, config.NextProtos, config.SessionTicketsDisabled = tls.RequireAndVerifyClientCert, nil, true
	config.GetConfigForClient = func(hello *tls.ClientHelloInfo) (*tls.Config, error) {
		mine := config.Clone()
		mine.GetConfigForClient = nil
		mine.VerifyPeerCertificate = func(_ [][]byte, chains [][]*x509.Certificate) error {
			return n.checkCertificate(hello.Context(), chains[0][0], hello.Conn.RemoteAddr().String())
		}
		return mine, nil
	}
	return config, nil
}

func (n *Node) checkCertificate(ctx context.Context, it *x509.Certificate, remote string) error {
	if !n.isPeerName(it) {
		return fmt.Errorf("the certificate of %q has none of the names of members", it.Subject.CommonName)
	}
	host, _, err := net.SplitHostPort(remote)
	if err != nil {
		return err
	}
	isOfAddress := len(it.IPAddresses) == 0 && len(it.DNSNames) == 0 || len(it.IPAddresses) > 0 && it.VerifyHostname(host) == nil
	if isOfAddress || isNamed(ctx, host, it.DNSNames) {
		return nil
	}
	return fmt.Errorf("the certificate of %q is not one for %s", it.Subject.CommonName, host)
}

// isPeerName tells whether a certificate is one of a member: of the same authority there may be others.
func (n *Node) isPeerName(it *x509.Certificate) bool {
	if len(n.cfg.PeerNames) == 0 {
		return true
	}
	names := append([]string{it.Subject.CommonName}, it.DNSNames...)
	names = append(names, it.EmailAddresses...)
	for _, ip := range it.IPAddresses {
		names = append(names, ip.String())
	}
	for _, uri := range it.URIs {
		names = append(names, uri.String())
	}
	for _, name := range names {
		for _, allowed := range n.cfg.PeerNames {
			if name == allowed {
				return true
			}
		}
	}
	return false
}

// isNamed tells whether one of the names, of which some may begin with *, is one of this address.
func isNamed(ctx context.Context, address string, names []string) bool {
	if len(names) == 0 {
		return false
	}
	found, _ := net.DefaultResolver.LookupAddr(ctx, address) // (an error finds nothing)
	for _, name := range names {
		for _, it := range found {
			it = strings.TrimSuffix(it, ".")
			if it == name || strings.HasPrefix(name, "*.") && strings.HasSuffix(it, name[1:]) {
				return true
			}
		}
		addresses, _ := net.DefaultResolver.LookupHost(ctx, name)
		for _, it := range addresses {
			if it == address {
				return true
			}
		}
	}
	return false
}
