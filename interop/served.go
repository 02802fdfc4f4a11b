// A log's folder behind a web server: Python's own, on a free port of this machine.
package main

import (
	"bufio"
	"fmt"
	"io"
	"net/http"
	"os"
	"os/exec"
	"path/filepath"
	"regexp"
	"syscall"
)

const servedLength = 70000

// Serves a folder, and proves records of it by what the server sends.
func compareServed() {
	if _, err := exec.LookPath("python3"); err != nil {
		fmt.Println("interop: no folder is served, python3 is missing")
		return
	}
	room, err := os.MkdirTemp("", "warg-tlog-")
	stop(err)
	defer os.RemoveAll(room)
	log := newFolder(filepath.Join(room, "log"))
	log.append(servedLength)
	server, port := serve(log.name)
	defer end(server)
	reader := readerOf(served("http://127.0.0.1:"+port+"/"), servedLength)
	for _, index := range []int64{0, 255, 256, 65535, 65536, servedLength - 1} {
		reader.record(index)
	}
	fmt.Printf("interop: a log of %d entries proves its records through python3 -m http.server, by %d files\n", servedLength, len(reader.kept))
}

// Files behind a server.
type served string

func (s served) get(path string) ([]byte, error) {
	answer, err := http.Get(string(s) + path)
	if err != nil {
		return nil, err
	}
	defer answer.Body.Close()
	if answer.StatusCode != http.StatusOK {
		return nil, fmt.Errorf("%s: %s", path, answer.Status)
	}
	return io.ReadAll(answer.Body)
}

// Starts a server, which picks a free port and says it.
func serve(folder string) (*exec.Cmd, string) {
	server := exec.Command("python3", "-u", "-m", "http.server", "0", "--bind", "127.0.0.1", "--directory", folder)
	// It ends with this program, whatever ends that.
	server.SysProcAttr = &syscall.SysProcAttr{Pdeathsig: syscall.SIGKILL}
	output, err := server.StdoutPipe()
	stop(err)
	stop(server.Start())
	line, err := bufio.NewReader(output).ReadString('\n')
	stop(err)
	port := regexp.MustCompile(`port (\d+)`).FindStringSubmatch(line)
	if port == nil {
		end(server)
		stop(fmt.Errorf("the server says no port: %q", line))
	}
	return server, port[1]
}

// Ends the server, by its own process.
func end(server *exec.Cmd) {
	_ = server.Process.Kill()
	_ = server.Wait()
}
