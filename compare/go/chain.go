package main

import (
	"os"
	"sync/atomic"

	"github.com/prometheus/client_golang/prometheus"
)

// What the counting thread raises, one after the other. The invariant is that of rust/src/chain.rs.
type chain struct {
	a, b, first, second prometheus.Counter
	bytes               prometheus.Histogram
}

// Registers a chain.
func newChain(registry *prometheus.Registry) chain {
	children := prometheus.NewCounterVec(prometheus.CounterOpts{Name: "d_total", Help: "Children."}, []string{"child"})
	made := chain{
		a:      prometheus.NewCounter(prometheus.CounterOpts{Name: "a_total", Help: "First."}),
		b:      prometheus.NewCounter(prometheus.CounterOpts{Name: "b_total", Help: "Second."}),
		bytes:  prometheus.NewHistogram(prometheus.HistogramOpts{Name: "c_bytes", Help: "Bytes.", Buckets: []float64{10, 100}}),
		first:  children.WithLabelValues("1"),
		second: children.WithLabelValues("2"),
	}
	registry.MustRegister(made.a, made.b, made.bytes, children)
	return made
}

// One round.
func (it *chain) count() {
	it.a.Inc()
	it.b.Inc()
	it.bytes.Observe(7)
	it.first.Inc()
	it.second.Inc()
}

// Prints so many scrapes, each behind a line of its own, while another goroutine counts without rest.
func torn(scrapes int) {
	registry := prometheus.NewRegistry()
	made := newChain(registry)
	var ended int32
	begun, done := make(chan struct{}), make(chan struct{})
	go func() {
		made.count()
		close(begun)
		for atomic.LoadInt32(&ended) == 0 {
			made.count()
		}
		close(done)
	}()
	<-begun
	for scrape := 0; scrape < scrapes; scrape++ {
		os.Stdout.Write(append([]byte("---\n"), text(registry)...))
	}
	atomic.StoreInt32(&ended, 1)
	<-done
}
