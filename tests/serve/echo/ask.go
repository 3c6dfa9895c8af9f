package main

import (
	"fmt"
	"log"
	"net"
	"strconv"
	"syscall"
	"time"
)

// processes is how many processes the cluster has, which are rebooted one after another.
const processes = 1000

// ask has so many clients ask a server for so many seconds, each of which waits for its answer
// before it asks again, and prints how many answers came a second. A tester in Python would take
// longer for an answer than the server.
func ask(path, count, seconds string) {
	clients, err := strconv.Atoi(count)
	if err != nil {
		log.Fatal(err)
	}
	limit, err := strconv.ParseFloat(seconds, 64)
	if err != nil {
		log.Fatal(err)
	}
	poll, err := syscall.EpollCreate1(0)
	if err != nil {
		log.Fatal(err)
	}
	lines := orders()
	for number := 0; number < clients; number++ {
		own, err := connect(path)
		if err == nil {
			err = watch(poll, own)
		}
		if err == nil {
			_, err = syscall.Write(own, lines[number%processes])
		}
		if err != nil {
			log.Fatal(err)
		}
	}
	begun := time.Now()
	trips, err := heard(poll, lines, begun.Add(time.Duration(limit*1e9)))
	if err != nil {
		log.Fatal(err)
	}
	fmt.Println(float64(trips) / time.Since(begun).Seconds())
}

// orders are the lines that are asked.
func orders() [][]byte {
	const order = `{"by":1,"act":{"kill":{"floor":"Reboot","key":"processid","kind":"Reboot",` +
		`"tear":0,"value":"p%d"}}}` + "\n"
	lines := make([][]byte, processes)
	for process := range lines {
		lines[process] = []byte(fmt.Sprintf(order, process))
	}
	return lines
}

// connect is a client to whom the header was sent.
func connect(path string) (int, error) {
	connection, err := net.Dial("unix", path)
	if err != nil {
		return 0, err
	}
	if _, err := connection.Read(make([]byte, len(header))); err != nil {
		return 0, err
	}
	return taken(connection.(*net.UnixConn))
}

// heard counts the answers until a time, and asks again behind each.
func heard(poll int, lines [][]byte, until time.Time) (trips int, err error) {
	var events [128]syscall.EpollEvent
	answer := make([]byte, 4096)
	for time.Now().Before(until) {
		count, err := syscall.EpollWait(poll, events[:], 1000)
		if err != nil && err != syscall.EINTR {
			return 0, err
		}
		for at := 0; at < count; at++ {
			client := int(events[at].Fd)
			read, err := syscall.Read(client, answer)
			if err != nil || read == 0 || answer[read-1] != '\n' {
				return 0, fmt.Errorf("no whole answer came: %w", err)
			}
			if _, err := syscall.Write(client, lines[trips%processes]); err != nil {
				return 0, err
			}
			trips++
		}
	}
	return trips, nil
}
