// Clients of etcd by its own Go library, over gRPC, that ask it for what `oathd serve` does at an acceptance: take the next
// factor of a token, once, durably, at a majority. That is one transaction: where the token's key is still of the revision
// that this client wrote last, it becomes the next factor.
//
//	etcd-grpc SECONDS CLIENTS PORT..
//	    CLIENTS connections that stay open, each with one transaction on its way, for a token of its own; client k asks the
//	    k-th of these ports of 127.0.0.1, round again. It ends after so many seconds
//
// It prints what bench/etcd-client.c prints: transactions that took a factor, others, 0, the seconds, of the answers the
// median, the 99th percentile and the greatest time in microseconds, and its seconds of processor time.
package main

import (
	"context"
	"fmt"
	"os"
	"sort"
	"strconv"
	"sync"
	"syscall"
	"time"

	"go.etcd.io/etcd/clientv3"
)

// What one client saw.
type tally struct {
	taken, others int
	times         []float64
}

func fail(err error) {
	fmt.Fprintln(os.Stderr, "etcd-grpc:", err)
	os.Exit(1)
}

func connect(port string) *clientv3.Client {
	client, err := clientv3.New(clientv3.Config{Endpoints: []string{"127.0.0.1:" + port}, DialTimeout: 10 * time.Second})
	if err != nil {
		fail(err)
	}
	return client
}

// ask takes the next factor of a token until the end.
func ask(client *clientv3.Client, key string, end time.Time) (result tally) {
	first, err := client.Put(context.Background(), key, fmt.Sprintf("%020d", 0))
	if err != nil {
		fail(err)
	}
	revision := first.Header.Revision
	for factor := 1; time.Now().Before(end); factor++ {
		begun := time.Now()
		is := clientv3.Compare(clientv3.ModRevision(key), "=", revision)
		next := clientv3.OpPut(key, fmt.Sprintf("%020d", factor))
		answer, err := client.Txn(context.Background()).If(is).Then(next).Commit()
		if err != nil {
			fail(err)
		}
		result.times = append(result.times, float64(time.Since(begun).Microseconds()))
		if answer.Succeeded {
			result.taken++
			revision = answer.Header.Revision
		} else {
			result.others++
		}
	}
	return result
}

func main() {
	if len(os.Args) < 4 {
		fmt.Fprintln(os.Stderr, "etcd-grpc SECONDS CLIENTS PORT..")
		os.Exit(2)
	}
	seconds, _ := strconv.ParseFloat(os.Args[1], 64)
	count, _ := strconv.Atoi(os.Args[2])
	ports := os.Args[3:]
	clients := make([]*clientv3.Client, count)
	for k := range clients {
		clients[k] = connect(ports[k%len(ports)])
	}
	tallies := make([]tally, count)
	begun := time.Now()
	end := begun.Add(time.Duration(seconds * float64(time.Second)))
	var all sync.WaitGroup
	for k := range clients {
		all.Add(1)
		go func(k int) {
			defer all.Done()
			tallies[k] = ask(clients[k], fmt.Sprintf("g%d", k), end)
		}(k)
	}
	all.Wait()
	took := time.Since(begun).Seconds()
	var sum tally
	for _, each := range tallies {
		sum.taken += each.taken
		sum.others += each.others
		sum.times = append(sum.times, each.times...)
	}
	sort.Float64s(sum.times)
	at := func(part float64) float64 {
		if len(sum.times) == 0 {
			return 0
		}
		return sum.times[int(part*float64(len(sum.times)-1))]
	}
	var usage syscall.Rusage
	syscall.Getrusage(syscall.RUSAGE_SELF, &usage)
	spent := float64(usage.Utime.Nano()+usage.Stime.Nano()) / 1e9
	fmt.Printf("%d %d 0 %.3f %.0f %.0f %.0f %.3f\n", sum.taken, sum.others, took, at(0.5), at(0.99), at(1), spent)
}
