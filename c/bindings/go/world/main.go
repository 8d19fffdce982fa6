// World is one scripted world, as checks/programs/test_connections has it, by Go's connections: it reads a script and prints its trace.
package main

import (
	"bufio"
	"errors"
	"fmt"
	"hash/fnv"
	"io"
	"math"
	"os"
	"strconv"
	"strings"
	"tcpcore"
	"time"
)

const never = math.MaxUint64

// began is when each world begins.
var began = time.Date(2026, 1, 1, 0, 0, 0, 0, time.UTC)

// packet is a segment on its way to a side.
type packet struct {
	at    uint64
	side  int
	bytes []byte
}

// fate is what becomes of a side's emissions: from `first` on `count` are lost, or come so much later.
type fate struct {
	side                int
	first, count, later uint64
}

type world struct {
	ends             [2]*tcpcore.Connection
	now, way, window uint64
	emitted, given   [2]uint64
	packets          []packet
	fates            []fate
	rules            tcpcore.Rules
	out              *bufio.Writer
}

var addrs = [2]tcpcore.Addr{{10, 0, 0, 1}, {10, 0, 0, 2}}

// time is the time as a connection has it.
func (w *world) time() time.Time { return began.Add(time.Duration(w.now) * time.Microsecond) }

// pollAt is when a side wants to be called.
func (w *world) pollAt(side int) uint64 {
	at := w.ends[side].PollAt()
	if at.IsZero() {
		return never
	}
	return uint64(at.Sub(began) / time.Microsecond)
}

func (w *world) print(side int, format string, words ...any) {
	fmt.Fprintf(w.out, "%d %c "+format, append([]any{w.now, "AB"[side]}, words...)...)
}

func (w *world) show(side int) {
	s := w.ends[side].Status()
	w.print(side, "is %d %d %d %d %d %d %d %d ", s.Phase, s.Ending, s.Unread, s.Ordered, s.Released, s.Room, s.Queued, s.InFlight)
	if at := w.pollAt(side); at != never {
		fmt.Fprintln(w.out, at)
	} else {
		fmt.Fprintln(w.out, "-")
	}
}

// arrival is when the side's emission of this number comes; never where it is lost.
func (w *world) arrival(side int, number uint64) uint64 {
	at := w.now + w.way
	for _, fate := range w.fates {
		if fate.side == side && number >= fate.first && number-fate.first < fate.count {
			if fate.later == never {
				return never
			}
			at += fate.later
		}
	}
	return at
}

func (w *world) emit(side int) {
	var room [tcpcore.EmitRoom]byte
	w.ends[side].Window = w.window
	for {
		sent := w.ends[side].Emit(w.time(), &room)
		if sent.Length == 0 {
			return
		}
		w.print(side, "sent %d %d %d %x", sent.Length, sent.Position, sent.Count, room[:4*(room[12]>>4)])
		if at := w.arrival(side, w.emitted[side]); at == never {
			fmt.Fprintln(w.out, " lost")
		} else {
			fmt.Fprintln(w.out)
			w.packets = append(w.packets, packet{at, 1 - side, append([]byte{}, room[:sent.Length]...)})
		}
		w.emitted[side]++
	}
}

// deliver hands in all that has come, in the order in which it was emitted.
func (w *world) deliver() {
	left := []packet{}
	for _, it := range w.packets {
		if it.at > w.now {
			left = append(left, it)
			continue
		}
		report, err := w.ends[it.side].Arrive(w.time(), addrs[1-it.side], addrs[it.side], it.bytes)
		w.print(it.side, "came %d %d %d %d %d\n", number(err), report.Acked, bit(report.AtOnce), bit(report.IsDuplicate), bit(report.WindowTaken))
	}
	w.packets = left
}

// turn has what is due go out, and timers expire.
func (w *world) turn(side int) {
	w.emit(side)
	for {
		timer, expired := w.ends[side].Timeout(w.time())
		if !expired {
			break
		}
		w.print(side, "expired %d\n", timer)
		w.emit(side)
	}
	w.show(side)
}

// goOn lets time go on, and whatever happens by then.
func (w *world) goOn(until uint64) {
	for {
		next := min(w.pollAt(0), w.pollAt(1))
		for _, it := range w.packets {
			next = min(next, it.at)
		}
		if next == never || next > until {
			break
		}
		w.now = max(w.now, next)
		w.deliver()
		w.turn(0)
		w.turn(1)
	}
	w.now = max(w.now, until)
}

func min(one, other uint64) uint64 {
	if other < one {
		return other
	}
	return one
}

func max(one, other uint64) uint64 {
	if other > one {
		return other
	}
	return one
}

func bit(so bool) int {
	if so {
		return 1
	}
	return 0
}

// number is an answer's number in tcpcore.h.
func number(err error) uint32 {
	refused := tcpcore.Refused(0)
	errors.As(err, &refused)
	return uint32(refused)
}

// words are the words of a line that aren't read yet.
type words []string

func (words *words) next() string {
	word := (*words)[0]
	*words = (*words)[1:]
	return word
}

func (words *words) number() uint64 {
	word := words.next()
	if word == "-" {
		return never
	}
	found, err := strconv.ParseUint(word, 10, 64)
	if err != nil {
		panic(err)
	}
	return found
}

func (words *words) duration() time.Duration {
	if found := words.number(); found != never {
		return time.Duration(found) * time.Microsecond
	}
	return tcpcore.Never
}

func (words *words) side() int { return strings.Index("AB", words.next()) }

// begin begins a new world: A connects to B.
func (w *world) begin(words *words) {
	for _, end := range w.ends {
		if end != nil {
			end.Free()
		}
	}
	*w = world{way: words.number(), window: never, rules: w.rules, out: w.out}
	config := tcpcore.DefaultConfig(addrs[0], 1, 4294967290)
	config.MSS, config.SendCapacity = uint16(words.number()), words.number()
	config.RecvCapacity = config.SendCapacity
	if shift := words.number(); shift != never {
		config.Shift = int8(shift)
	}
	config.Runs = uint16(words.number())
	client, err := tcpcore.Connect(config, w.rules, addrs[1], 2, began)
	if err != nil {
		panic(err)
	}
	config.Addr, config.Port, config.ISN = addrs[1], 2, 5000
	server, err := tcpcore.Listen(config, w.rules, began)
	if err != nil {
		panic(err)
	}
	w.ends = [2]*tcpcore.Connection{client, server}
	fmt.Fprintln(w.out, "new")
	w.turn(0)
	w.turn(1)
}

// counted prints what a call that counts bytes answered.
func (w *world) counted(count int, err error) {
	if err == nil {
		fmt.Fprintln(w.out, count)
	} else if err == io.EOF {
		fmt.Fprintln(w.out, "answer 52")
	} else {
		fmt.Fprintln(w.out, "answer", number(err))
	}
}

func (w *world) send(side int, count uint64) {
	text := make([]byte, count)
	for i := range text {
		at := w.given[side] + uint64(i)
		text[i] = byte(at*7 + at>>8 + uint64(3*side))
	}
	taken, err := w.ends[side].Send(w.time(), text)
	w.given[side] += uint64(taken)
	w.counted(taken, err)
}

func (w *world) receive(side int, room uint64) {
	out := make([]byte, room)
	count, err := w.ends[side].Receive(w.time(), out)
	sum := fnv.New32a()
	sum.Write(out[:count])
	switch {
	case err == nil && count > 0:
		fmt.Fprintln(w.out, count, sum.Sum32())
	case err == nil:
		fmt.Fprintln(w.out, "answer 51")
	default:
		w.counted(count, err)
	}
}

func (w *world) peek(side int) {
	first, second, err := w.ends[side].Peek()
	if count := len(first) + len(second); count > 0 || err != nil {
		w.counted(count, err)
	} else {
		fmt.Fprintln(w.out, "answer 51")
	}
}

// call makes a call of a side's user.
func (w *world) call(side int, words *words) {
	name := words.next()
	w.goOn(words.number())
	w.print(side, "%s ", name)
	end := w.ends[side]
	switch name {
	case "send":
		w.send(side, words.number())
	case "receive":
		w.receive(side, words.number())
	case "peek":
		w.peek(side)
	case "consume":
		w.counted(end.Consume(w.time(), int(words.number())))
	case "acknowledge":
		w.counted(0, end.Acknowledge(w.time()))
	case "close":
		w.counted(0, end.Close(w.time()))
	case "abort":
		w.counted(0, end.Abort(w.time()))
	default:
		panic(name)
	}
	w.turn(side)
}

func (w *world) line(words words) {
	switch word := words.next(); word {
	case "rules":
		for _, it := range []*time.Duration{&w.rules.First, &w.rules.Least, &w.rules.Greatest, &w.rules.Granularity, &w.rules.AfterSyn,
			&w.rules.TimeWait, &w.rules.Handshake, &w.rules.User, &w.rules.FinWait2} {
			*it = words.duration()
		}
		w.rules.SuspectAfter = uint32(words.number())
	case "new":
		w.begin(&words)
	case "lose":
		w.fates = append(w.fates, fate{words.side(), words.number(), words.number(), never})
	case "late":
		w.fates = append(w.fates, fate{words.side(), words.number(), words.number(), words.number()})
	case "window":
		w.window = words.number()
	case "run":
		w.goOn(words.number())
	default:
		w.call(strings.Index("AB", word), &words)
	}
}

func main() {
	w := &world{rules: tcpcore.DefaultRules(), out: bufio.NewWriter(os.Stdout)}
	defer w.out.Flush()
	for lines := bufio.NewScanner(os.Stdin); lines.Scan(); {
		w.line(strings.Fields(lines.Text()))
	}
}
