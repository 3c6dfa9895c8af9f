// Command echo answers each line at a Unix socket by a line that is as long as an entry, behind the
// header of an audit. It is what tests/serve/speed measures faultyard-serve beside: a server of its
// shape without a guard.
//
//	echo SOCKET [FILE]
//	echo ask SOCKET CLIENTS SECONDS
//
// With FILE it appends what it answers to those who came together, and sends it once it is on the
// disk. The second form is the clients of a server.
package main

import (
	"log"
	"net"
	"os"
	"syscall"
)

const (
	header = "{\"audit\":2}\n"
	// more is what an entry has more than the line of its act.
	more = `,"at":123456,"reply":{"verdict":{"rule":null,"struck":"Reboot"}}}` + "\n"
)

func main() {
	if len(os.Args) == 5 && os.Args[1] == "ask" {
		ask(os.Args[2], os.Args[3], os.Args[4])
		return
	}
	listener, err := net.Listen("unix", os.Args[1])
	if err != nil {
		log.Fatal(err)
	}
	poll, err := syscall.EpollCreate1(0)
	if err != nil {
		log.Fatal(err)
	}
	var file *os.File
	if len(os.Args) > 2 {
		if file, err = os.Create(os.Args[2]); err != nil {
			log.Fatal(err)
		}
	}
	go func() { log.Fatal(serve(poll, file)) }()
	for {
		connection, err := listener.Accept()
		if err == nil {
			err = add(poll, connection.(*net.UnixConn))
		}
		if err != nil {
			log.Fatal(err)
		}
	}
}

// add takes in a client.
func add(poll int, connection *net.UnixConn) error {
	if _, err := connection.Write([]byte(header)); err != nil {
		return connection.Close() // It only looked whether anybody is here.
	}
	own, err := taken(connection)
	if err != nil {
		return err
	}
	return watch(poll, own)
}

// taken is the descriptor of a connection, out of the runtime's hands.
func taken(connection *net.UnixConn) (int, error) {
	defer connection.Close()
	file, err := connection.File()
	if err != nil {
		return 0, err
	}
	defer file.Close()
	return syscall.Dup(int(file.Fd()))
}

// watch has epoll tell when a descriptor has something to read.
func watch(poll, descriptor int) error {
	event := syscall.EpollEvent{Events: syscall.EPOLLIN, Fd: int32(descriptor)}
	return syscall.EpollCtl(poll, syscall.EPOLL_CTL_ADD, descriptor, &event)
}

// batch is what came together: the answers, whose they are, and where each client's ends.
type batch struct {
	answers       []byte
	clients, ends []int
}

// serve answers all who are there together.
func serve(poll int, file *os.File) error {
	var events [128]syscall.EpollEvent
	var its batch
	part := make([]byte, 1<<16)
	for {
		count, err := syscall.EpollWait(poll, events[:], -1)
		if err != nil && err != syscall.EINTR {
			return err
		}
		its = batch{its.answers[:0], its.clients[:0], its.ends[:0]}
		for at := 0; at < count; at++ {
			its.read(int(events[at].Fd), part)
		}
		if file != nil && len(its.answers) > 0 {
			if _, err := file.Write(its.answers); err != nil {
				return err
			}
			if err := syscall.Fdatasync(int(file.Fd())); err != nil {
				return err
			}
		}
		its.answer()
	}
}

// read takes in the line that a client says, or lets it go. A client says one, and waits for its
// answer.
func (its *batch) read(client int, part []byte) {
	read, err := syscall.Read(client, part)
	if err != nil || read < len("}\n") {
		_ = syscall.Close(client)
		return
	}
	its.answers = append(append(its.answers, part[:read-len("}\n")]...), more...)
	its.clients, its.ends = append(its.clients, client), append(its.ends, len(its.answers))
}

// answer sends each client its line. One that is gone is let go at the next look.
func (its *batch) answer() {
	from := 0
	for at, client := range its.clients {
		_, _ = syscall.Write(client, its.answers[from:its.ends[at]])
		from = its.ends[at]
	}
}
