package main

import (
	"fmt"
	"strconv"
	"sync"
	"time"

	"github.com/prometheus/client_golang/prometheus"
)

// The bounds of the histogram.
var bounds = []float64{5, 10, 25, 50, 100, 250, 500, 1000, 2500, 5000}

// The nanoseconds of an operation by so many threads at once: the time until all have ended by the rounds of one.
func each(threads, rounds int, operation func()) float64 {
	var all sync.WaitGroup
	start := time.Now()
	for thread := 0; thread < threads; thread++ {
		all.Add(1)
		go func() {
			for round := 0; round < rounds; round++ {
				operation()
			}
			all.Done()
		}()
	}
	all.Wait()
	return float64(time.Since(start).Nanoseconds()) / float64(rounds)
}

// Prints the nanoseconds of an operation: by one thread, the fastest of a hundred batches of a tenth of the rounds, and by
// four at once.
func line(name string, rounds int, operation func()) {
	least := each(1, rounds/10+1, operation)
	for batch := 1; batch < 100; batch++ {
		if taken := each(1, rounds/10+1, operation); taken < least {
			least = taken
		}
	}
	fmt.Printf("%s 1 %.1f\n%s 4 %.1f\n", name, least, name, each(4, rounds, operation))
}

// Prints all lines.
func updates(rounds int) {
	one := prometheus.NewCounter(prometheus.CounterOpts{Name: "one_total", Help: "One."})
	line("inc", rounds, one.Inc)
	sizes := prometheus.NewHistogram(prometheus.HistogramOpts{Name: "sizes", Help: "Sizes.", Buckets: bounds})
	line("observe", rounds, func() { sizes.Observe(7) })
	family := prometheus.NewCounterVec(prometheus.CounterOpts{Name: "ten_total", Help: "Ten."}, []string{"n"})
	ten := make([]prometheus.Counter, 10)
	for n := range ten {
		ten[n] = family.WithLabelValues(strconv.Itoa(n))
	}
	line("inc_10", rounds/10, func() {
		for _, counter := range ten {
			counter.Inc()
		}
	})
	line("observe_10", rounds/10, func() {
		for _, value := range bounds {
			sizes.Observe(value)
		}
	})
}
