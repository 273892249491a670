package main

import (
	"fmt"
	"os"
	"sort"
	"time"

	"github.com/prometheus/client_golang/prometheus"
)

// How many families there are of a kind, and how many children each has.
type many struct{ families, children int }

// The families of counters, of histograms and of gauges of a page of several boards.
type pageSeries struct{ counters, histograms, gauges many }

var pages = map[string]pageSeries{
	"one":   {many{1, 256}, many{1, 32}, many{1, 64}},
	"whole": {many{40, 250}, many{40, 25}, many{20, 25}},
}

// How many bounds each histogram has, and how often each of them is observed.
const pageBounds, pageTimes = 10, 100

// The value of the label of a child, of so many. They do not come in the order in which children are made.
func handler(child, children int) string {
	return fmt.Sprintf("/api/v1/%03d", child*101%children)
}

// What is counted of a child.
func amount(family, child int) float64 {
	return float64(10007*(family%32) + 1009*(child%256+1))
}

// The families of a page, with one label.
type pageFamilies struct {
	registry   *prometheus.Registry
	counters   []*prometheus.CounterVec
	histograms []*prometheus.HistogramVec
	gauges     []*prometheus.GaugeVec
}

func (it *pageFamilies) addCounters(number, children int) {
	made := prometheus.NewCounterVec(prometheus.CounterOpts{
		Name: fmt.Sprintf("requests_%02d_total", number),
		Help: fmt.Sprintf("Requests answered so far by service part %02d.", number),
	}, []string{"handler"})
	for child := 0; child < children; child++ {
		made.WithLabelValues(handler(child, children))
	}
	it.registry.MustRegister(made)
	it.counters = append(it.counters, made)
}

func (it *pageFamilies) addHistograms(number, children int) {
	made := prometheus.NewHistogramVec(prometheus.HistogramOpts{
		Name:    fmt.Sprintf("response_%02d_micros", number),
		Help:    fmt.Sprintf("Microseconds taken by answers of part %02d.", number),
		Buckets: bounds,
	}, []string{"handler"})
	for child := 0; child < children; child++ {
		made.WithLabelValues(handler(child, children))
	}
	it.registry.MustRegister(made)
	it.histograms = append(it.histograms, made)
}

func (it *pageFamilies) addGauges(number, children int) {
	made := prometheus.NewGaugeVec(prometheus.GaugeOpts{
		Name: fmt.Sprintf("waiting_%02d", number),
		Help: fmt.Sprintf("Requests that wait at service part %02d.", number),
	}, []string{"handler"})
	for child := 0; child < children; child++ {
		made.WithLabelValues(handler(child, children))
	}
	it.registry.MustRegister(made)
	it.gauges = append(it.gauges, made)
}

// Registers all families, with their children.
func (it pageSeries) register() *pageFamilies {
	made := &pageFamilies{registry: prometheus.NewRegistry()}
	for number := 0; number < it.counters.families; number++ {
		made.addCounters(number, it.counters.children)
	}
	for number := 0; number < it.histograms.families; number++ {
		made.addHistograms(number, it.histograms.children)
	}
	for number := 0; number < it.gauges.families; number++ {
		made.addGauges(number, it.gauges.children)
	}
	return made
}

// Counts all: each bound of a histogram a hundred times.
func (it *pageFamilies) count(series pageSeries) {
	for family, made := range it.counters {
		for child := 0; child < series.counters.children; child++ {
			made.WithLabelValues(handler(child, series.counters.children)).Add(amount(family, child))
		}
	}
	for family, made := range it.gauges {
		for child := 0; child < series.gauges.children; child++ {
			made.WithLabelValues(handler(child, series.gauges.children)).Add(amount(family, child))
		}
	}
	for _, made := range it.histograms {
		for child := 0; child < series.histograms.children; child++ {
			histogram := made.WithLabelValues(handler(child, series.histograms.children))
			for at := 0; at < pageBounds*pageTimes; at++ {
				histogram.Observe(bounds[at%pageBounds])
			}
		}
	}
}

// Prints the nanoseconds of one of 4,000 increments of these counters in turn, in the fastest of a hundred batches.
func inTurn(name string, counters []prometheus.Counter) {
	const rounds = 4000
	least := time.Duration(1 << 62)
	for batch := 0; batch < 100; batch++ {
		start := time.Now()
		for round := 0; round < rounds; round++ {
			counters[round%len(counters)].Inc()
		}
		if taken := time.Since(start); taken < least {
			least = taken
		}
	}
	fmt.Printf("%s %.2f\n", name, float64(least.Nanoseconds())/rounds)
}

// Prints the nanoseconds of registering a page, those of so many scrapes with their texts, the least and the median, how many bytes the text
// has, and those of an increment of one counter, and of one of each family in turn; or one text, where there are no scrapes to make.
func measurePage(series pageSeries, scrapes int) {
	start := time.Now()
	families := series.register()
	registered := time.Since(start)
	families.count(series)
	if scrapes == 0 {
		os.Stdout.Write(text(families.registry))
		return
	}
	var bytes int
	times := make([]time.Duration, scrapes)
	for at := range times {
		start := time.Now()
		bytes = len(text(families.registry))
		times[at] = time.Since(start)
	}
	sort.Slice(times, func(a, b int) bool { return times[a] < times[b] })
	fmt.Printf("register %d\ngather %d %d\nbytes %d\n", registered, times[0], times[scrapes/2], bytes)
	firsts := make([]prometheus.Counter, len(families.counters))
	for at, made := range families.counters {
		firsts[at] = made.WithLabelValues(handler(0, series.counters.children))
	}
	inTurn("inc", firsts[:1])
	inTurn("inc_in_turn", firsts)
}
