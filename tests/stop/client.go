// Sends lines in bursts by fluent-logger-golang, which does not ask for acknowledgements, until its input ends: a port, whether it
// is `async`, the number of its first line, how many lines a burst has, and its pause in milliseconds. It numbers its lines, and
// posts one again that the logger gives up. In the end it prints how many it posted.
package main

import (
	"fmt"
	"io"
	"os"
	"strconv"
	"strings"
	"time"

	"github.com/fluent/fluent-logger-golang/fluent"
)

func check(err error) {
	if err != nil {
		fmt.Fprintln(os.Stderr, err)
		os.Exit(1)
	}
}

func number(text string) int {
	value, err := strconv.Atoi(text)
	check(err)
	return value
}

func main() {
	// as Docker's log driver has it, but for its waits of a second
	logger, err := fluent.New(fluent.Config{
		FluentHost:         "127.0.0.1",
		FluentPort:         number(os.Args[1]),
		SubSecondPrecision: true,
		Async:              os.Args[2] == "async",
		BufferLimit:        1 << 20,
		RetryWait:          50,
		MaxRetryWait:       200,
		MaxRetry:           1 << 30,
	})
	check(err)
	front, lines, pause := number(os.Args[3]), number(os.Args[4]), number(os.Args[5])
	ends := make(chan bool)
	go func() {
		_, _ = io.Copy(io.Discard, os.Stdin)
		close(ends)
	}()
	posted := 0
	for goesOn := true; goesOn; {
		for last := posted + lines; posted < last; posted++ {
			record := map[string]interface{}{"n": front + posted, "s": strings.Repeat("x", 300)}
			for logger.PostWithTime("app", time.Now(), record) != nil {
				time.Sleep(20 * time.Millisecond)
			}
		}
		select {
		case <-ends:
			goesOn = false
		case <-time.After(time.Duration(pause) * time.Millisecond):
		}
	}
	check(logger.Close())
	fmt.Println(posted)
}
