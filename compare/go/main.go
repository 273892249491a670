// The work of compare/ over Go's client_golang. The words are those of rust/src/main.rs.
package main

import (
	"bytes"
	"fmt"
	"net"
	"net/http"
	"os"
	"strconv"
	"time"

	"github.com/prometheus/client_golang/prometheus"
	"github.com/prometheus/client_golang/prometheus/promhttp"
	"github.com/prometheus/common/expfmt"
)

// How many families of counters a service has, how many of histograms, and how many bounds each histogram has.
type service struct{ counters, histograms, bounds int }

var services = map[string]service{"small": {8, 1, 10}, "large": {32, 4, 24}}

// The bound at a place: they are 5, 10, 25, 50, 100, 250 and so on.
func bound(place int) float64 {
	bound := []float64{5, 10, 25}[place%3]
	for i := 0; i < place/3; i++ {
		bound *= 10
	}
	return bound
}

// Registers a family of counters, counted.
func addCounters(registry *prometheus.Registry, family int) {
	made := prometheus.NewCounterVec(prometheus.CounterOpts{
		Name: fmt.Sprintf("requests_%02d_total", family),
		Help: fmt.Sprintf("Requests answered so far by service part %02d.", family),
	}, []string{"handler"})
	for child := 0; child < 8; child++ {
		made.WithLabelValues(fmt.Sprintf("/api/v1/%d", child)).Add(float64(10007*(family%32) + 1009*(child+1)))
	}
	registry.MustRegister(made)
}

// Registers a family of histograms, of which each bound is observed a thousand times.
func addHistograms(registry *prometheus.Registry, family, bounds int) {
	all := make([]float64, bounds)
	for place := range all {
		all[place] = bound(place)
	}
	made := prometheus.NewHistogramVec(prometheus.HistogramOpts{
		Name:    fmt.Sprintf("response_%02d_micros", family),
		Help:    fmt.Sprintf("Microseconds taken by answers of part %02d.", family),
		Buckets: all,
	}, []string{"handler"})
	for child := 0; child < 8; child++ {
		histogram := made.WithLabelValues(fmt.Sprintf("/api/v1/%d", child))
		for i := 0; i < 1000*bounds; i++ {
			histogram.Observe(all[i%bounds])
		}
	}
	registry.MustRegister(made)
}

// A registry of a service.
func (it service) registry() *prometheus.Registry {
	registry := prometheus.NewRegistry()
	for family := 0; family < it.counters; family++ {
		addCounters(registry, family)
	}
	for family := 0; family < it.histograms; family++ {
		addHistograms(registry, family, it.bounds)
	}
	return registry
}

// The text of a scrape.
func text(registry *prometheus.Registry) []byte {
	families, err := registry.Gather()
	if err != nil {
		panic(err)
	}
	var out bytes.Buffer
	for _, family := range families {
		if _, err := expfmt.MetricFamilyToText(&out, family); err != nil {
			panic(err)
		}
	}
	return out.Bytes()
}

// Prints the nanoseconds of a scrape with its text: the fastest of a hundred batches of a tenth of the rounds.
func gather(it service, rounds int) {
	registry, least := it.registry(), time.Duration(1<<62)
	rounds = rounds/10 + 1
	for batch := 0; batch < 100; batch++ {
		start := time.Now()
		for round := 0; round < rounds; round++ {
			text(registry)
		}
		if taken := time.Since(start); taken < least {
			least = taken
		}
	}
	fmt.Printf("%.0f\n", float64(least.Nanoseconds())/float64(rounds))
}

// Serves a service by the library's own handler until the program is killed.
func serve(port string, it service) {
	listener, err := net.Listen("tcp", "127.0.0.1:"+port)
	if err != nil {
		fmt.Fprintln(os.Stderr, err)
		os.Exit(1)
	}
	fmt.Println("listening", listener.Addr().(*net.TCPAddr).Port)
	http.Handle("/metrics", promhttp.HandlerFor(it.registry(), promhttp.HandlerOpts{DisableCompression: true}))
	panic(http.Serve(listener, nil))
}

// Does what the words say, and tells whether they say something.
func run(words []string) bool {
	if len(words) < 2 {
		return false
	}
	it, isSize := services[words[len(words)-1]]
	series, isPage := pages[words[len(words)-1]]
	number, err := strconv.Atoi(words[1])
	switch {
	case words[0] == "torn" && len(words) == 2 && err == nil:
		torn(number)
	case words[0] == "updates" && len(words) == 2 && err == nil:
		updates(number)
	case words[0] == "gather" && len(words) == 3 && err == nil && isSize:
		gather(it, number)
	case words[0] == "page" && len(words) == 3 && err == nil && isPage:
		measurePage(series, number)
	case words[0] == "serve" && len(words) == 3 && isSize:
		serve(words[1], it)
	default:
		return false
	}
	return true
}

func main() {
	if !run(os.Args[1:]) {
		fmt.Fprintln(os.Stderr, "usage: peer torn SCRAPES | updates ROUNDS | gather ROUNDS SIZE | serve PORT SIZE | page SCRAPES one|whole")
		os.Exit(2)
	}
}
