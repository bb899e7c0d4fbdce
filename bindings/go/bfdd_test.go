package bfdd_test

import (
	"bfdd"
	"errors"
	"fmt"
	"net/netip"
)

func Example() {
	here, there := netip.MustParseAddr("10.0.0.1"), netip.MustParseAddr("10.0.0.2")
	session := bfdd.Session{Kind: bfdd.SingleHop, Discr: 1, Iface: 1, Local: here, Remote: there, Active: true,
		Tx: 1000000, Rx: 1000000, Mult: 3}
	engine, err := bfdd.OpenSession(&session)
	if err != nil {
		fmt.Println(err)
		return
	}
	defer engine.Close()
	payload := append([]byte{0x20, 0x40, 3, 24, 0, 0, 0, 7}, make([]byte, 16)...) // of a peer in Down, with My Discriminator 7
	packet := bfdd.Packet{Moment: 1500, Port: bfdd.PortSingle, Iface: 1, Src: there, Dst: here, Sport: 49152, TTL: 255}
	if err := engine.Receive(&packet, payload); err != nil {
		fmt.Println(err)
	}
	for out := engine.Next(); out != nil; out = engine.Next() {
		switch out := out.(type) {
		case bfdd.Changed:
			fmt.Println(out.Discr, out.Was, out.State, out.Diag)
		case bfdd.Sent:
			fmt.Println(out.Dst, out.Dport, out.TTL, len(out.Payload))
		}
	}
	answer, _ := engine.Answer()
	fmt.Println(answer.Kind == bfdd.Handled, answer.Discr)
	// Output:
	// 1 Down Init 0
	// true 1
}

func ExampleEngine_Add() {
	here, there := netip.MustParseAddr("10.0.0.1"), netip.MustParseAddr("10.0.0.2")
	engine, _ := bfdd.Open([]byte("bfd 1\nrun\nend\n"))
	defer engine.Close()
	session := bfdd.Session{Kind: bfdd.SingleHop, Discr: 1, Iface: 1, Local: here, Remote: there, Active: true,
		Tx: 1000000, Rx: 1000000, Mult: 3}
	fmt.Println(engine.Add(&session))
	fmt.Println(engine.Add(&session))
	session.Discr = 2
	fmt.Println(errors.Is(engine.Add(&session), bfdd.ErrTakenAddresses))
	fmt.Println(engine.AddReflector(2, 50000, true))
	fmt.Println(engine.Remove(1), engine.RemoveReflector(2))
	fmt.Println(engine.Remove(1))
	// Output:
	// <nil>
	// bfdd: the discriminator is in use
	// true
	// <nil>
	// <nil> <nil>
	// bfdd: no session or reflector has the discriminator
}

func Example_codes() {
	_, err := bfdd.Open([]byte("bfd 1\nrun\nshow 1 1\nend\n"))
	fmt.Println(err)
	_, err = bfdd.OpenSession(&bfdd.Session{})
	fmt.Println(err)
	engine, err := bfdd.Open([]byte("bfd 1\nrun\nend\n"))
	fmt.Println(err)
	engine.Close()
	fmt.Println(errors.Is(engine.Tick(1), bfdd.ErrClosed))
	// Output:
	// bfdd: line 3 of the table has fault 11
	// bfdd: a value is outside its range
	// <nil>
	// true
}

func ExampleName() {
	fmt.Println(bfdd.Name(bfdd.NamedDiagnostic, 1))
	fmt.Println(bfdd.Name(bfdd.NamedState, 4) == "")
	fmt.Println(bfdd.Version())
	// Output:
	// Control Detection Time Expired
	// true
	// 2 0
}
