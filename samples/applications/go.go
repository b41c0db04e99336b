package main

// A responder on Go's net/http/fcgi: it answers with the value of LOG and how many bytes of STDIN came.
import (
	"fmt"
	"io"
	"net"
	"net/http"
	"net/http/fcgi"
)

func main() {
	l, err := net.Listen("tcp", "127.0.0.1:9102")
	if err != nil {
		panic(err)
	}
	fcgi.Serve(l, http.HandlerFunc(func(w http.ResponseWriter, r *http.Request) {
		n, _ := io.Copy(io.Discard, r.Body)
		w.Header().Set("Content-Type", "text/plain")
		fmt.Fprintf(w, "log %s, %d bytes\n", fcgi.ProcessEnv(r)["LOG"], n)
	}))
}
