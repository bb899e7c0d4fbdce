// Replay replays a packet file of standard input, and writes the report that `bfdd replay` writes. The file is in the grammar.
package main

import (
	"bfdd"
	"encoding/hex"
	"fmt"
	"io"
	"net/netip"
	"os"
	"strconv"
	"strings"
)

var ports = map[string]bfdd.Port{
	"single": bfdd.PortSingle, "multi": bfdd.PortMulti, "echo": bfdd.PortEcho, "sbfd": bfdd.PortSbfd, "answer": bfdd.PortAnswer,
}

var verbs = map[string]bfdd.Verb{
	"disable": bfdd.Disable, "enable": bfdd.Enable, "reset": bfdd.Reset, "path": bfdd.Path, "tx": bfdd.Tx, "rx": bfdd.Rx,
	"mult": bfdd.Mult, "demand": bfdd.Demand, "echo": bfdd.Echo, "key": bfdd.Key,
}

func must[T any](value T, err error) T {
	if err != nil {
		fmt.Fprintln(os.Stderr, err)
		os.Exit(1)
	}
	return value
}

func number(field string) uint64 { return must(strconv.ParseUint(field, 10, 64)) }

func address(field string) netip.Addr {
	if strings.Contains(field, ".") {
		return must(netip.ParseAddr(field))
	}
	return netip.AddrFrom16(*(*[16]byte)(must(hex.DecodeString(field))))
}

// happen is one event line.
func happen(engine *bfdd.Engine, f []string) error {
	switch f[0] {
	case "rx":
		packet := bfdd.Packet{Moment: number(f[1]), Port: ports[f[2]], Iface: uint32(number(f[3])), Src: address(f[4]),
			Dst: address(f[5]), Sport: 49152, TTL: uint8(number(f[6]))}
		return engine.Receive(&packet, must(hex.DecodeString(strings.Trim(f[7], "-"))))
	case "tick":
		return engine.Tick(number(f[1]))
	case "show":
		return engine.Show(number(f[1]), uint32(number(f[2])))
	}
	value := uint64(0)
	if len(f) > 4 {
		value = number(f[4])
	}
	return engine.Command(number(f[1]), uint32(number(f[2])), verbs[f[3]], value)
}

// outputs writes those of the last event, and says how many packets were sent.
func outputs(engine *bfdd.Engine, at int) (sent int) {
	for out := engine.Next(); out != nil; out = engine.Next() {
		switch out := out.(type) {
		case bfdd.Changed:
			fmt.Println(at, "state", out.Discr, out.Was, out.State, out.Diag)
		case bfdd.Sent:
			sent++
			fmt.Println(at, "tx", out.Discr, hex.EncodeToString(out.Payload))
		}
	}
	return sent
}

func main() {
	text := string(must(io.ReadAll(os.Stdin)))
	table, events, _ := strings.Cut(text, "\nrun\n")
	engine := must(bfdd.Open([]byte(table + "\nrun\nend\n")))
	defer engine.Close()
	count, sent, dropped := 0, 0, 0
	for _, line := range strings.Split(strings.TrimSuffix(events, "end\n"), "\n") {
		if line == "" {
			break
		}
		count++
		if err := happen(engine, strings.Split(line, " ")); err != nil {
			must(0, err)
		}
		sent += outputs(engine, count)
		switch a := must(engine.Answer()); a.Kind {
		case bfdd.Dropped:
			dropped++
			fmt.Println(count, "drop", a.Name)
		case bfdd.Refused:
			fmt.Println(count, "refuse", a.Name)
		case bfdd.Shown:
			fmt.Println(count, "show", a.Discr, a.State, a.Diag, a.RemoteState, a.RemoteDiscr, a.AdvTx, a.UsedTx, a.UsedRx, a.Detect, a.Poll)
		}
	}
	fmt.Println("done", count, sent, dropped)
}
