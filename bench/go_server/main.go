// A server of HTTP/1.1 and of HTTP/2 with prior knowledge over golang.org/x/net, for trials of h2proxy.
//
//	go_server ADDRESS FOLDER
//
// /up gives back what is posted, as it comes; /digest the SHA-256 of it; /none answers 204; /fields a list of 30 KiB of fields;
// /trailers sends what it got in the trailer x-mine as its trailer x-end. Other paths are files of the folder.
package main

import (
	"crypto/sha256"
	"fmt"
	"io"
	"log"
	"net/http"
	"os"
	"strings"

	"golang.org/x/net/http2"
	"golang.org/x/net/http2/h2c"
)

func up(w http.ResponseWriter, r *http.Request) {
	w.WriteHeader(200)
	block := make([]byte, 65536)
	for {
		n, err := r.Body.Read(block)
		if n > 0 {
			if _, failed := w.Write(block[:n]); failed != nil {
				return
			}
			w.(http.Flusher).Flush()
		}
		if err != nil {
			return
		}
	}
}

func digest(w http.ResponseWriter, r *http.Request) {
	sum := sha256.New()
	n, err := io.Copy(sum, r.Body)
	if err != nil {
		log.Print("digest: ", err)
		return
	}
	fmt.Fprintf(w, "%x %d", sum.Sum(nil), n)
}

func trailers(w http.ResponseWriter, r *http.Request) {
	w.Header().Set("Trailer", "x-end")
	io.Copy(w, r.Body)
	w.Header().Set("x-end", "got "+r.Trailer.Get("x-mine"))
}

func fields(w http.ResponseWriter, r *http.Request) {
	for i := 0; i < 20; i++ {
		w.Header().Set(fmt.Sprintf("x-%d", i), strings.Repeat("v", 1500))
	}
	fmt.Fprintf(w, "%d", len(r.Header))
}

func main() {
	mux := http.NewServeMux()
	mux.HandleFunc("/up", up)
	mux.HandleFunc("/digest", digest)
	mux.HandleFunc("/trailers", trailers)
	mux.HandleFunc("/fields", fields)
	mux.HandleFunc("/none", func(w http.ResponseWriter, r *http.Request) { w.WriteHeader(204) })
	mux.Handle("/", http.FileServer(http.Dir(os.Args[2])))
	server := &http.Server{Addr: os.Args[1], Handler: h2c.NewHandler(mux, &http2.Server{MaxConcurrentStreams: 250}), MaxHeaderBytes: 1 << 20}
	log.Fatal(server.ListenAndServe())
}
