// client KIND PORT UPLOAD: the requests of a file of dialogues by golang.org/x/net/http2.
package main

import (
	"bytes"
	"crypto/tls"
	"fmt"
	"io"
	"net"
	"net/http"
	"os"
	"sync"
	"time"

	"golang.org/x/net/http2"
)

var status int

func main() {
	url := "http://127.0.0.1:" + os.Args[2]
	transport := &http2.Transport{AllowHTTP: true, DialTLS: func(network, address string, _ *tls.Config) (net.Conn, error) { return net.Dial(network, address) }}
	client := &http.Client{Transport: transport, Timeout: 20 * time.Second}
	var lock sync.Mutex
	send := func(bit int, method, path string, content io.Reader) {
		request, _ := http.NewRequest(method, url+path, content)
		answer, err := client.Do(request)
		var body []byte
		if err == nil {
			body, err = io.ReadAll(answer.Body)
			answer.Body.Close()
		}
		lock.Lock()
		defer lock.Unlock()
		if err != nil || answer.StatusCode >= 400 {
			fmt.Println(bit, "fails:", err)
			status |= bit
		} else {
			fmt.Println(bit, answer.StatusCode, len(body))
		}
	}
	switch os.Args[1] {
	case "get":
		send(1, "GET", "/", nil)
	case "upload":
		content, _ := os.ReadFile(os.Args[3])
		send(1, "POST", "/p", bytes.NewReader(content))
	case "next-request":
		send(1, "GET", "/1", nil)
		send(2, "GET", "/2", nil)
	case "two-requests":
		var wait sync.WaitGroup
		wait.Add(2)
		go func() { defer wait.Done(); send(1, "GET", "/1", nil) }()
		time.Sleep(60 * time.Millisecond)
		go func() { defer wait.Done(); send(2, "GET", "/2", nil) }()
		wait.Wait()
	default:
		os.Exit(9)
	}
	transport.CloseIdleConnections()
	time.Sleep(100 * time.Millisecond)
	os.Exit(status)
}
