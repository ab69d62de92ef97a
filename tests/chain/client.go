// Sends lines by fluent-logger-golang, an entry at a time with RequestAck, until it is terminated: a port and a folder.
// It appends each line to go.sent before it is sent, and to go.held once the logger says that it was acknowledged; one
// that the logger gives up is posted again. A line is a tag, a time and a message, which ends in the only dot of it.
package main

import (
	"fmt"
	"math/rand"
	"os"
	"os/signal"
	"path/filepath"
	"strconv"
	"strings"
	"syscall"
	"time"

	"github.com/fluent/fluent-logger-golang/fluent"
)

func check(err error) {
	if err != nil {
		fmt.Fprintln(os.Stderr, err)
		os.Exit(1)
	}
}

func note(path string) *os.File {
	file, err := os.OpenFile(path, os.O_WRONLY|os.O_APPEND|os.O_CREATE, 0o600)
	check(err)
	return file
}

func main() {
	port, err := strconv.Atoi(os.Args[1])
	check(err)
	sent, held := note(filepath.Join(os.Args[2], "go.sent")), note(filepath.Join(os.Args[2], "go.held"))
	stop := make(chan os.Signal, 1)
	signal.Notify(stop, syscall.SIGTERM)
	logger, err := fluent.New(fluent.Config{
		FluentHost:         "127.0.0.1",
		FluentPort:         port,
		SubSecondPrecision: true,
		RequestAck:         true,
		RetryWait:          100,
		MaxRetryWait:       1000,
	})
	check(err)
	for number := 1; len(stop) == 0; number++ {
		message := fmt.Sprintf("go %d %s.", number, strings.Repeat("words ", rand.Intn(50)))
		moment := time.Now()
		line := fmt.Sprintf("chain.go %d.%09d %s\n", moment.Unix(), moment.Nanosecond(), message)
		_, err := sent.WriteString(line)
		check(err)
		for logger.PostWithTime("chain.go", moment, map[string]string{"message": message}) != nil {
			time.Sleep(100 * time.Millisecond)
		}
		_, err = held.WriteString(line)
		check(err)
		time.Sleep(20 * time.Millisecond)
	}
	check(logger.Close())
}
