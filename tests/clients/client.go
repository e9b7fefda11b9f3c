// Go's http2 against a server on 127.0.0.1. Prints a line for each check: `ok NAME`, or what is wrong.
package main

import (
	"bytes"
	"crypto/tls"
	"fmt"
	"io"
	"net"
	"net/http"
	"os"
	"sync"

	"golang.org/x/net/http2"
)

func report(name string, good bool, found interface{}) {
	if good {
		fmt.Println("ok", name)
	} else {
		fmt.Println("failed", name, found)
	}
}

func main() {
	transport := &http2.Transport{
		AllowHTTP: true,
		DialTLS: func(network, address string, _ *tls.Config) (net.Conn, error) {
			return net.Dial(network, address)
		},
	}
	client := &http.Client{Transport: transport}
	url := "http://127.0.0.1:" + os.Args[1]

	send := func(method, path string, content io.Reader) (int, []byte, error) {
		request, err := http.NewRequest(method, url+path, content)
		if err != nil {
			return 0, nil, err
		}
		answer, err := client.Do(request)
		if err != nil {
			return 0, nil, err
		}
		defer answer.Body.Close()
		body, err := io.ReadAll(answer.Body)
		return answer.StatusCode, body, err
	}

	status, body, err := send("GET", "/", nil)
	report("GET", err == nil && status == 200 && string(body) == "hello\n", err)
	status, _, err = send("GET", "/none", nil)
	report("404", err == nil && status == 404, err)
	status, body, err = send("POST", "/upload", bytes.NewReader(bytes.Repeat([]byte("u"), 1000000)))
	report("POST of 1,000,000 octets", err == nil && status == 200 && string(body) == "took it!", err)

	var wait sync.WaitGroup
	var lock sync.Mutex
	good := 0
	for i := 0; i < 100; i++ {
		wait.Add(1)
		go func() {
			defer wait.Done()
			status, body, err := send("GET", "/large", nil)
			lock.Lock()
			defer lock.Unlock()
			if err == nil && status == 200 && len(body) == 60000 {
				good++
			}
		}()
	}
	wait.Wait()
	report("100 answers of 60,000 octets at once", good == 100, good)
	transport.CloseIdleConnections()
}
