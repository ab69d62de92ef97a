// Sends a hundred entries by fluent-logger-golang: a port, whether times have nanoseconds, and whether each entry asks
// for an acknowledgement. It ends with 1 where the logger says that one was not sent, or not acknowledged.
package main

import (
	"fmt"
	"os"
	"strconv"
	"time"

	"github.com/fluent/fluent-logger-golang/fluent"
)

func main() {
	port, _ := strconv.Atoi(os.Args[1])
	logger, err := fluent.New(fluent.Config{
		FluentHost:         "127.0.0.1",
		FluentPort:         port,
		SubSecondPrecision: os.Args[2] == "nanoseconds",
		RequestAck:         os.Args[3] == "acks",
		MaxRetry:           3,
		Timeout:            5 * time.Second,
	})
	if err != nil {
		fmt.Fprintln(os.Stderr, err)
		os.Exit(1)
	}
	for i := 0; i < 100; i++ {
		record := map[string]interface{}{"message": fmt.Sprintf("line %d", i), "count": i}
		moment := time.Unix(1700000000+int64(i), int64(i)*1001)
		if err := logger.PostWithTime("app.go", moment, record); err != nil {
			fmt.Fprintln(os.Stderr, err)
			os.Exit(1)
		}
	}
	if err := logger.Close(); err != nil {
		fmt.Fprintln(os.Stderr, err)
		os.Exit(1)
	}
}
