// A job that a live master decides for, by a pipe to `mrjob serve`: go run serve.go LOG [PROGRAM].
//
// Each line is kept in LOG before it is sent. Where LOG has lines already, they are told to a new master, and the job
// goes on from there. Here a task is done as soon as it starts.
package main

import (
	"bufio"
	"bytes"
	"errors"
	"fmt"
	"io"
	"log"
	"os"
	"os/exec"
	"strings"
)

const head = "script 2\ncentre c\nrack r c\nrack q c\nworker a r 2\nworker b r 1\nworker d q 1\n" +
	"split s 10 a\nsplit t 20 b\nsplit u 30 d\n" +
	"doc one s the cat\ndoc two t the dog\ndoc three u a cat and a dog\nbegin"

type Master struct {
	process *exec.Cmd
	lines   io.WriteCloser
	answers *bufio.Reader
	log     *os.File
}

// Turn is a line with its answer.
type Turn struct {
	line   string
	answer []string
}

// Open starts a master of the job that the log has, or else the head, and gives the lines behind `begin` with their
// answers. A line of the log that was cut off was never sent.
func Open(program, head, path string) (*Master, []Turn, error) {
	log, err := os.OpenFile(path, os.O_APPEND|os.O_CREATE|os.O_RDWR, 0o644)
	if err != nil {
		return nil, nil, err
	}
	text, _ := io.ReadAll(log)
	kept := string(text[:bytes.LastIndexByte(text, '\n')+1])
	log.Truncate(int64(len(kept)))
	process := exec.Command(program, "serve")
	lines, _ := process.StdinPipe()
	answers, _ := process.StdoutPipe()
	if err := process.Start(); err != nil {
		return nil, nil, err
	}
	master := &Master{process, lines, bufio.NewReader(answers), log}
	first, rest, isThere := strings.Cut(kept, "\nbegin\n")
	if !isThere {
		fault, err := master.Tell(head)
		if err == nil && len(fault) > 0 {
			err = errors.New(strings.Join(fault, "\n"))
		}
		return master, nil, err
	}
	told := []Turn{}
	_, err = master.ask(first + "\nbegin")
	for _, line := range strings.SplitAfter(rest, "\n") {
		if err == nil && line != "" {
			var answer []string
			answer, err = master.ask(strings.TrimSuffix(line, "\n"))
			told = append(told, Turn{line, answer})
		}
	}
	return master, told, err
}

// Tell gives the lines of the answer to a line, which the log has before it is sent.
func (m *Master) Tell(line string) ([]string, error) {
	if _, err := fmt.Fprintln(m.log, line); err != nil {
		return nil, err
	}
	return m.ask(line)
}

func (m *Master) ask(line string) ([]string, error) {
	if _, err := fmt.Fprintln(m.lines, line); err != nil {
		return nil, err
	}
	lines := []string{}
	for {
		line, err := m.answers.ReadString('\n')
		if err != nil || line == "\n" {
			return lines, err
		}
		lines = append(lines, strings.TrimSuffix(line, "\n"))
	}
}

// Close ends the session; the error has the master's status, unless that is 0.
func (m *Master) Close() error {
	m.lines.Close()
	return m.process.Wait()
}

// note keeps which attempts run, in order, by a line with its answer, and gives how many were started.
func note(running *[]string, line string, answer []string) int {
	if strings.HasPrefix(line, "done ") {
		*running = (*running)[1:]
	}
	before := len(*running)
	for _, it := range answer {
		if words := strings.Fields(it); words[0] == "start" || words[0] == "reduce" {
			*running = append(*running, words[1])
		}
	}
	return len(*running) - before
}

func run(path, program string) error {
	master, told, err := Open(program, head, path)
	if err != nil {
		return err
	}
	running := []string{}
	for _, it := range told {
		note(&running, it.line, it.answer)
	}
	fmt.Printf("told %d lines, %d attempts run\n", len(told), len(running))
	for idle := 0; idle < 2; idle++ {
		line := []string{"wave", "reduce"}[idle]
		if len(running) > 0 {
			line = "done " + running[0]
		}
		answer, err := master.Tell(line)
		if err != nil {
			return err
		}
		fmt.Printf("%s: %s\n", line, strings.Join(answer, ", "))
		if note(&running, line, answer) > 0 || strings.HasPrefix(line, "done ") {
			idle = -1
		}
	}
	end, err := master.Tell("end")
	if err != nil {
		return err
	}
	fmt.Println(strings.Join(end, "\n"))
	return master.Close()
}

func main() {
	words := append(os.Args[1:], "mrjob")
	if len(words) < 2 {
		log.Fatal("usage: serve LOG [PROGRAM]")
	}
	if err := run(words[0], words[1]); err != nil {
		log.Fatal(err)
	}
}
