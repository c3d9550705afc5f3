package main

import (
	"context"
	"fmt"
	"io"
	"strings"
	"sync"
	"time"

	"go.etcd.io/etcd/clientv3"
	"go.uber.org/zap"
	"google.golang.org/grpc/grpclog"
)

const (
	ofConnection = 32 // clients that share a connection to etcd, which takes many requests at once
	keysOfClient = 64
	valueSize    = 100
)

func init() { grpclog.SetLoggerV2(grpclog.NewLoggerV2(io.Discard, io.Discard, io.Discard)) }

// place is an address and the number of a connection to it.
type place struct {
	address string
	number  int
}

var (
	etcdsLock sync.Mutex
	etcds     = map[place]*clientv3.Client{}
)

func etcdAt(at place) (*clientv3.Client, error) {
	etcdsLock.Lock()
	defer etcdsLock.Unlock()
	if client := etcds[at]; client != nil {
		return client, nil
	}
	quiet := zap.NewProductionConfig()
	quiet.Level = zap.NewAtomicLevelAt(zap.FatalLevel) // (errors come back as errors)
	client, err := clientv3.New(clientv3.Config{Endpoints: []string{at.address}, LogConfig: &quiet})
	if err == nil {
		etcds[at] = client
	}
	return client, err
}

// A putter is a client of etcd. What it puts twice is the same.
type putter struct {
	client int
	limit  time.Duration
}

var value = strings.Repeat("v", valueSize)

func (p *putter) ask(address string, step uint64) (bool, error) {
	client, err := etcdAt(place{address, p.client / ofConnection})
	if err != nil {
		return false, err
	}
	ctx, cancel := context.WithTimeout(context.Background(), p.limit)
	defer cancel()
	_, err = client.Put(ctx, fmt.Sprintf("k/%d/%d", p.client, step%keysOfClient), value)
	return false, err
}

func (p *putter) close() {}
