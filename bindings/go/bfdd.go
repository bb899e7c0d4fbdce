// Package bfdd is libbfdd, a proved engine for Bidirectional Forwarding Detection.
//
// The engine does no input, no output and no waiting: hand packets and ticks in, and send what comes out. After each event call Next
// until it has no output left, and Answer if it matters; then sleep until Due or until a packet comes. docs/EMBEDDING.md says when
// to call what. Moments and intervals are microseconds, ticks milliseconds, since one start that the caller chooses.
package bfdd

/*
#cgo pkg-config: bfdd
#include <bfdd.h>
*/
import "C"

import (
	"fmt"
	"net/netip"
	"unsafe"
)

// A Code says why a call did nothing. The engine is then as it was.
type Code uint32

const (
	ErrClosed Code = C.BFDD_CLOSED // the engine is closed
	ErrMemory Code = C.BFDD_MEMORY // out of memory
	ErrRange  Code = C.BFDD_RANGE  // a value is outside its range
	ErrEvents Code = C.BFDD_EVENTS // the table has event lines

	ErrTakenDiscr     Code = C.BFDD_TAKEN_DISCR     // a session or a reflector has the discriminator already
	ErrTakenAddresses Code = C.BFDD_TAKEN_ADDRESSES // a session of the kind has the selecting addresses already
	ErrFull           Code = C.BFDD_FULL            // there are 65,536 sessions and reflectors already
	ErrNotFound       Code = C.BFDD_NOT_FOUND       // no session, or no reflector, has the discriminator
)

func (code Code) Error() string {
	switch code {
	case ErrClosed:
		return "bfdd: the engine is closed"
	case ErrMemory:
		return "bfdd: out of memory"
	case ErrRange:
		return "bfdd: a value is outside its range"
	case ErrEvents:
		return "bfdd: the table has event lines"
	case ErrTakenDiscr:
		return "bfdd: the discriminator is in use"
	case ErrTakenAddresses:
		return "bfdd: a session has the addresses already"
	case ErrFull:
		return "bfdd: no session or reflector more can be held"
	case ErrNotFound:
		return "bfdd: no session or reflector has the discriminator"
	}
	return fmt.Sprintf("bfdd: code %d", uint32(code))
}

func failure(code C.uint32_t) error {
	if code == C.BFDD_DONE {
		return nil
	}
	return Code(code)
}

// A Named has names.
type Named uint32

const (
	NamedCode       Named = C.BFDD_NAME_CODE
	NamedFault      Named = C.BFDD_NAME_FAULT
	NamedDrop       Named = C.BFDD_NAME_DROP
	NamedRefusal    Named = C.BFDD_NAME_REFUSAL
	NamedState      Named = C.BFDD_NAME_STATE
	NamedDiagnostic Named = C.BFDD_NAME_DIAGNOSTIC
	NamedOutput     Named = C.BFDD_NAME_OUTPUT
)

// Name is the name of a number, or "" where it has none.
func Name(named Named, number uint32) string {
	return C.GoString(C.bfdd_name(C.uint32_t(named), C.uint32_t(number)))
}

// Version is the version of the library, major and minor.
func Version() (major, minor uint32) {
	number := uint32(C.bfdd_version())
	return number >> 16, number & 0xffff
}

// A TableError says that a text is no table.
type TableError struct {
	Line  uint64 // the first faulty line, from 1
	Fault uint32 // by its number in bfdd.h
}

func (fault TableError) Error() string {
	return fmt.Sprintf("bfdd: line %d of the table has fault %d", fault.Line, fault.Fault)
}

// A Kind of session.
type Kind uint32

const (
	SingleHop Kind = C.BFDD_SINGLE_HOP
	Multihop  Kind = C.BFDD_MULTIHOP
	Initiator Kind = C.BFDD_INITIATOR
	Head      Kind = C.BFDD_HEAD
	Tail      Kind = C.BFDD_TAIL
)

// A Session has the fields of bfdd_session; what its kind doesn't use counts for nothing, except Auth: a kind without authentication
// refuses any but 0.
type Session struct {
	Kind          Kind
	Discr, Other  uint32
	Iface         uint32
	Local, Remote netip.Addr
	Active        bool
	Tx, Rx        uint32 // microseconds
	Mult, Echo    uint32
	Seed          uint32
	Auth          uint32 // RFC 5880 section 4.1, 0 for none
	KeyID         uint8
	Key           []byte // 1 to 16 bytes, or with SHA1 to 20
}

func (s *Session) toC() C.bfdd_session {
	to := C.bfdd_session{
		size: C.sizeof_bfdd_session, kind: C.uint32_t(s.Kind), discr: C.uint32_t(s.Discr), other: C.uint32_t(s.Other),
		iface: C.uint32_t(s.Iface), local: toC(s.Local), remote: toC(s.Remote), tx: C.uint32_t(s.Tx), rx: C.uint32_t(s.Rx),
		mult: C.uint32_t(s.Mult), echo: C.uint32_t(s.Echo), seed: C.uint32_t(s.Seed), auth: C.uint32_t(s.Auth),
		key_id: C.uint32_t(s.KeyID), key_len: C.uint32_t(len(s.Key)),
	}
	if s.Active {
		to.active = 1
	}
	for at := 0; at < len(s.Key) && at < len(to.key); at++ {
		to.key[at] = C.uint8_t(s.Key[at])
	}
	return to
}

// A Port says on which kind of port a packet came.
type Port uint32

const (
	PortSingle Port = C.BFDD_PORT_SINGLE
	PortMulti  Port = C.BFDD_PORT_MULTI
	PortEcho   Port = C.BFDD_PORT_ECHO
	PortSbfd   Port = C.BFDD_PORT_SBFD
	PortAnswer Port = C.BFDD_PORT_ANSWER
)

// A Packet came in; this is all but its payload.
type Packet struct {
	Moment   uint64
	Port     Port
	Iface    uint32
	Src, Dst netip.Addr
	Sport    uint16
	TTL      uint8
}

// A Verb of a command.
type Verb uint32

const (
	Disable Verb = C.BFDD_DISABLE
	Enable  Verb = C.BFDD_ENABLE
	Reset   Verb = C.BFDD_RESET
	Path    Verb = C.BFDD_PATH
	Tx      Verb = C.BFDD_TX
	Rx      Verb = C.BFDD_RX
	Mult    Verb = C.BFDD_MULT
	Demand  Verb = C.BFDD_DEMAND
	Echo    Verb = C.BFDD_ECHO
	Key     Verb = C.BFDD_KEY
)

// A State of a session.
type State uint8

const (
	AdminDown State = C.BFDD_ADMIN_DOWN
	Down      State = C.BFDD_DOWN
	Init      State = C.BFDD_INIT
	Up        State = C.BFDD_UP
)

func (state State) String() string {
	return [...]string{"AdminDown", "Down", "Init", "Up"}[state]
}

// An AnswerKind says which of the fields of an Answer count.
type AnswerKind uint32

const (
	Handled AnswerKind = C.BFDD_HANDLED
	Ticked  AnswerKind = C.BFDD_TICKED
	Dropped AnswerKind = C.BFDD_DROPPED
	Refused AnswerKind = C.BFDD_REFUSED
	Shown   AnswerKind = C.BFDD_SHOWN
)

// An Answer says what became of the last event: of one that was dropped or refused Code and Name, of one that shows a session the rest.
// Discr is the session to which the event came; 0 where it came to none or to a reflector, and of a tick.
type Answer struct {
	Kind               AnswerKind
	Code               uint32
	Name               string
	Discr, RemoteDiscr uint32
	State, RemoteState State
	Diag, Poll         uint8 // Poll: 0 none, 1 requested, 2 running
	AdvTx              uint32
	UsedTx, UsedRx     uint32
	Detect             uint64
}

// An Output is a Changed or a Sent.
type Output interface{ isOutput() }

// Changed is a change of a session's state.
type Changed struct {
	Discr      uint32
	Was, State State
	Diag       uint8
}

// Sent is a packet to send.
type Sent struct {
	Discr, Iface uint32
	Src, Dst     netip.Addr
	Sport, Dport uint16
	TTL          uint8
	Payload      []byte
}

func (Changed) isOutput() {}
func (Sent) isOutput()    {}

// An Engine has sessions and reflectors. It is in one call at a time: goroutines that share one have a lock round it. Close frees it.
type Engine struct{ handle C.bfdd_handle }

// Open opens an engine with the sessions and reflectors of a table: the text of a packet file without event lines.
func Open(table []byte) (*Engine, error) {
	var engine Engine
	complaint := C.bfdd_complaint{size: C.sizeof_bfdd_complaint}
	code := C.bfdd_open(&engine.handle, first(table), C.size_t(len(table)), &complaint)
	if code == C.BFDD_TEXT {
		return nil, TableError{uint64(complaint.line), uint32(complaint.fault)}
	}
	return opened(&engine, code)
}

// OpenSession opens an engine with this session alone.
func OpenSession(session *Session) (*Engine, error) {
	var engine Engine
	from := session.toC()
	return opened(&engine, C.bfdd_open_session(&engine.handle, &from))
}

func opened(engine *Engine, code C.uint32_t) (*Engine, error) {
	if code != C.BFDD_DONE {
		return nil, Code(code)
	}
	return engine, nil
}

// Close frees all that the engine owns; it then answers ErrClosed.
func (e *Engine) Close() { C.bfdd_close(&e.handle) }

// Add has one session more. The others, and the outputs that weren't read, stay as they are; so it is with the three calls below.
func (e *Engine) Add(session *Session) error {
	from := session.toC()
	return failure(C.bfdd_add(&e.handle, &from))
}

// Remove lets a session leave. Its peer is sent nothing: for that disable it before.
func (e *Engine) Remove(discr uint32) error {
	return failure(C.bfdd_remove(&e.handle, C.uint32_t(discr)))
}

// AddReflector has one reflector more, with its Required Min RX Interval, whose answers say Up or AdminDown.
func (e *Engine) AddReflector(discr, rx uint32, up bool) error {
	said := C.uint32_t(0)
	if up {
		said = 1
	}
	return failure(C.bfdd_add_reflector(&e.handle, C.uint32_t(discr), C.uint32_t(rx), said))
}

// RemoveReflector lets a reflector leave.
func (e *Engine) RemoveReflector(discr uint32) error {
	return failure(C.bfdd_remove_reflector(&e.handle, C.uint32_t(discr)))
}

// Receive hands in a packet that came.
func (e *Engine) Receive(packet *Packet, payload []byte) error {
	from := C.bfdd_packet{
		size: C.sizeof_bfdd_packet, port: C.uint32_t(packet.Port), moment: C.uint64_t(packet.Moment), iface: C.uint32_t(packet.Iface),
		sport: C.uint16_t(packet.Sport), ttl: C.uint8_t(packet.TTL), src: toC(packet.Src), dst: toC(packet.Dst),
	}
	return failure(C.bfdd_receive(&e.handle, &from, first(payload), C.size_t(len(payload))))
}

// Tick says that the clock has reached this millisecond.
func (e *Engine) Tick(ms uint64) error { return failure(C.bfdd_tick(&e.handle, C.uint64_t(ms))) }

// Command gives a session a command. That it refuses it is an Answer.
func (e *Engine) Command(moment uint64, discr uint32, verb Verb, value uint64) error {
	return failure(C.bfdd_command(&e.handle, C.uint64_t(moment), C.uint32_t(discr), C.uint32_t(verb), C.uint64_t(value)))
}

// Show asks a session to show itself: the Answer has it.
func (e *Engine) Show(moment uint64, discr uint32) error {
	return failure(C.bfdd_show(&e.handle, C.uint64_t(moment), C.uint32_t(discr)))
}

// Answer says what became of the last event.
func (e *Engine) Answer() (Answer, error) {
	from := C.bfdd_answered{size: C.sizeof_bfdd_answered}
	code := C.bfdd_answer(&e.handle, &from)
	return Answer{
		Kind: AnswerKind(from.kind), Code: uint32(from.code), Name: C.GoString(&from.name[0]), Discr: uint32(from.discr),
		RemoteDiscr: uint32(from.remote_discr), State: State(from.state), RemoteState: State(from.remote_state),
		Diag: uint8(from.diag), Poll: uint8(from.poll), AdvTx: uint32(from.adv_tx), UsedTx: uint32(from.used_tx),
		UsedRx: uint32(from.used_rx), Detect: uint64(from.detect),
	}, failure(code)
}

// Next is the next output of the last event, in the order in which they came, or nil. What isn't read before the next event is gone.
func (e *Engine) Next() Output {
	from := C.bfdd_output{size: C.sizeof_bfdd_output}
	if C.bfdd_next(&e.handle, &from) != C.BFDD_DONE {
		return nil
	}
	if from.kind == C.BFDD_CHANGED {
		return Changed{uint32(from.discr), State(from.was), State(from.state), uint8(from.diag)}
	}
	return Sent{
		uint32(from.discr), uint32(from.iface), fromC(&from.src), fromC(&from.dst), uint16(from.sport), uint16(from.dport),
		uint8(from.ttl), C.GoBytes(unsafe.Pointer(&from.bytes), C.int(from.len)),
	}
}

// A Look is what is seen of a session: what it shows, the peer's values, moments in microseconds, and counts. Dropped goes by the code
// of an Answer.
type Look struct {
	Discr, RemoteDiscr                              uint32
	State, RemoteState                              State
	Diag, Poll                                      uint8
	AdvTx, UsedTx, UsedRx, PeerTx, PeerRx, PeerEcho uint32
	PeerMult, PeerDiag                              uint8
	PeerDemand                                      bool
	Detect, DetectEnd, Heard, Changed               uint64
	Received, Sent, Ups, Downs                      uint64
	Dropped                                         [25]uint64
}

// Look sees a session as it stands after the last event. Nothing is settled, and the outputs stay.
func (e *Engine) Look(discr uint32) (Look, error) {
	from := C.bfdd_session_state{size: C.sizeof_bfdd_session_state}
	code := C.bfdd_state(&e.handle, C.uint32_t(discr), &from)
	look := Look{
		Discr: uint32(from.discr), RemoteDiscr: uint32(from.remote_discr), State: State(from.state), RemoteState: State(from.remote_state),
		Diag: uint8(from.diag), Poll: uint8(from.poll), AdvTx: uint32(from.adv_tx), UsedTx: uint32(from.used_tx),
		UsedRx: uint32(from.used_rx), PeerTx: uint32(from.peer_tx), PeerRx: uint32(from.peer_rx), PeerEcho: uint32(from.peer_echo),
		PeerMult: uint8(from.peer_mult), PeerDiag: uint8(from.peer_diag), PeerDemand: from.peer_demand == 1,
		Detect: uint64(from.detect), DetectEnd: uint64(from.detect_end), Heard: uint64(from.heard), Changed: uint64(from.changed),
		Received: uint64(from.received), Sent: uint64(from.sent), Ups: uint64(from.ups), Downs: uint64(from.downs),
	}
	for at := range from.dropped {
		look.Dropped[at] = uint64(from.dropped[at])
	}
	return look, failure(code)
}

// Due is the least tick that is needed next, in milliseconds, or false where none is before the next event.
func (e *Engine) Due() (uint64, bool) {
	var ms C.uint64_t
	code := C.bfdd_due(&e.handle, &ms)
	return uint64(ms), code == C.BFDD_DONE
}

// first points to the bytes of a slice; without any, to a byte all the same, since no pointer may be null.
func first(bytes []byte) *C.uint8_t {
	if len(bytes) == 0 {
		bytes = make([]byte, 1)
	}
	return (*C.uint8_t)(unsafe.Pointer(&bytes[0]))
}

// toC has family 0, which is outside its range, of an address that isn't valid.
func toC(address netip.Addr) (to C.bfdd_address) {
	for at, it := range address.AsSlice() {
		to.bytes[at] = C.uint8_t(it)
	}
	switch {
	case address.Is4():
		to.family = 4
	case address.Is6():
		to.family = 6
	}
	return to
}

func fromC(address *C.bfdd_address) netip.Addr {
	bytes := *(*[16]byte)(unsafe.Pointer(&address.bytes))
	if address.family == 4 {
		return netip.AddrFrom4(*(*[4]byte)(bytes[:4]))
	}
	return netip.AddrFrom16(bytes)
}
