package door

import (
	"os"
	"syscall"

	"faultyard-serve/internal/book"
)

// batch is clients of the socket who ask together. Where another leads, they wait for the next sync
// together with whoever comes until then, and the loop serves others meanwhile.
type batch struct {
	clients []*client
	party   *book.Party
	leads   bool // it is woken to lead
}

// newBatch is a batch without clients: one that is used again, where there is one.
func (its *loop) newBatch() *batch {
	if last := len(its.idle) - 1; last >= 0 {
		found := its.idle[last]
		its.idle = its.idle[:last]
		return found
	}
	made := &batch{party: book.NewParty()}
	made.party.Wake = func(leads bool) { its.wake(made, leads) }
	return made
}

// add takes in a client that asks.
func (its *batch) add(client *client) {
	its.clients = append(its.clients, client)
	its.party.Turns = append(its.party.Turns, client.turn)
}

// join has the clients of a batch answered: at once where nobody leads, else once it is woken.
func (its *loop) join(asking *batch) {
	if its.lines.Book.Join(asking.party) {
		its.lead(asking)
	} else {
		its.waiting += len(asking.clients)
	}
}

// lead makes the acts of all who wait. It blocks the loop: whoever asks meanwhile had to wait for
// the sync anyhow.
func (its *loop) lead(asking *batch) {
	its.lines.Book.Lead(asking.party)
	its.answerAll(asking)
}

// answerAll answers the clients of a batch that was served.
func (its *loop) answerAll(served *batch) {
	for _, client := range served.clients {
		its.answer(client)
	}
	served.clients, served.party.Turns = served.clients[:0], served.party.Turns[:0]
	its.idle = append(its.idle, served)
}

// wake notes that a batch was served, or is to lead, and rings. Whoever leads calls it.
func (its *loop) wake(woken *batch, leads bool) {
	its.lock.Lock()
	defer its.lock.Unlock()
	woken.leads = leads
	its.woken = append(its.woken, woken)
	if len(its.woken) == 1 {
		its.bell.ring()
	}
}

// heed answers those who were woken, or leads. Those who wait are all served then.
func (its *loop) heed() {
	its.lock.Lock()
	woken := its.woken
	its.woken, its.heeded = its.heeded[:0], woken
	its.bell.still()
	its.lock.Unlock()
	for _, one := range woken {
		count := len(one.clients)
		if one.leads {
			its.lastReady = its.waiting
			its.lines.Book.Lead(one.party)
		}
		its.waiting -= count
		its.answerAll(one)
	}
}

// bell is a descriptor that can be read once it was rung.
type bell int

// newBell is a bell that wasn't rung.
func newBell() (bell, error) {
	const flags = syscall.O_CLOEXEC | syscall.O_NONBLOCK
	descriptor, _, number := syscall.Syscall(syscall.SYS_EVENTFD2, 0, flags, 0)
	if number != 0 {
		return 0, os.NewSyscallError("eventfd", number)
	}
	return bell(descriptor), nil
}

// ring rings it. The write fails only where it was rung too often, and then it can be read.
func (its bell) ring() { _, _ = syscall.Write(int(its), []byte{1, 0, 0, 0, 0, 0, 0, 0}) }

// still has it as if it wasn't rung.
func (its bell) still() { _, _ = syscall.Read(int(its), make([]byte, 8)) }
