// server PORT: golang.org/x/net/http2 over cleartext. It reads each request to its end, and then answers 200, or 400 where it can't be read.
package main

import (
	"io"
	"net"
	"net/http"
	"os"

	"golang.org/x/net/http2"
)

func main() {
	listener, err := net.Listen("tcp", "127.0.0.1:"+os.Args[1])
	if err != nil {
		panic(err)
	}
	handler := http.HandlerFunc(func(writer http.ResponseWriter, request *http.Request) {
		if _, err := io.Copy(io.Discard, request.Body); err != nil {
			writer.WriteHeader(400)
			return
		}
		io.WriteString(writer, "hi")
	})
	server := &http2.Server{MaxReadFrameSize: 16384}
	for {
		connection, err := listener.Accept()
		if err != nil {
			return
		}
		go server.ServeConn(connection, &http2.ServeConnOpts{Handler: handler})
	}
}
