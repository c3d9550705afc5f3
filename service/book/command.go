package book

/*
#include "lrc_embed.h"
*/
import "C"

import (
	"fmt"
	"strconv"
	"strings"
	"unsafe"
)

// A Kind is what a command does. Its numbers are those of lrc_command_kind.
type Kind uint8

// The kinds of commands.
const (
	Place    Kind = C.LRC_PLACE
	Drop     Kind = C.LRC_DROP
	Lease    Kind = C.LRC_LEASE
	Next     Kind = C.LRC_NEXT
	Done     Kind = C.LRC_REPORT
	Abandon  Kind = C.LRC_ABANDON
	Revoke   Kind = C.LRC_REVOKE
	Fail     Kind = C.LRC_FAIL
	Down     Kind = C.LRC_DOWN
	Up       Kind = C.LRC_UP
	Drain    Kind = C.LRC_DRAIN
	Undrain  Kind = C.LRC_UNDRAIN
	Retire   Kind = C.LRC_RETIRE
	Join     Kind = C.LRC_JOIN
	Upgrade  Kind = C.LRC_UPGRADE
	Upgraded Kind = C.LRC_UPGRADED
	Tick     Kind = C.LRC_TICK
	Place6   Kind = C.LRC_PLACE6
)

// A Command has the layout of lrc_command. The fields that its kind does not use are 0.
type Command struct {
	Kind     Kind
	Fragment uint8
	Domain   uint8
	_        [5]uint8
	Epoch    uint32
	Stripe   uint16
	Node     uint16
}

// Parse reads a command as a line of a script.
func Parse(line string) (command Command, err error) {
	text, cause := []byte(line), C.uint32_t(0)
	status := C.lrc_embed_read_command(firstByte(text), C.size_t(len(text)), command.c(), &cause)
	switch status {
	case C.LRC_DONE:
		return command, nil
	case C.LRC_BAD_LINE:
		return Command{}, fmt.Errorf("%s: %q", lineWords.of(uint32(cause)), cut(line))
	case C.LRC_UNKNOWN: // (a script passes it over)
		return Command{}, fmt.Errorf("this is a comment, or empty: %q", cut(line))
	}
	return Command{}, faultOf(status)
}

func (c *Command) c() *C.lrc_command { return (*C.lrc_command)(unsafe.Pointer(c)) }

// cut shortens a word that somebody sent, for a message.
func cut(word string) string {
	if len(word) > 32 {
		return word[:32]
	}
	return word
}

// ParseNumber reads a decimal number from 0 to most, without sign and leading zeros.
func ParseNumber(word string, most uint64) (uint64, error) {
	if word == "" || strings.Trim(word, "0123456789") != "" || len(word) > 1 && word[0] == '0' {
		return 0, fmt.Errorf("is not a number: %q", cut(word))
	}
	value, err := strconv.ParseUint(word, 10, 64)
	if err != nil || value > most {
		return 0, fmt.Errorf("is out of its range, 0 to %d: %s", most, cut(word))
	}
	return value, nil
}

// mostLine is the length of the longest line of a command.
const mostLine = 26

// String is the command as a line of a script.
func (c Command) String() string {
	text, length := make([]byte, mostLine), C.size_t(0)
	if C.lrc_embed_command_line(c.c(), firstByte(text), mostLine, &length) != C.LRC_DONE {
		return fmt.Sprintf("command %d", c.Kind)
	}
	return string(text[:length])
}

// Word is the first word of the command.
func (c Command) Word() string { return commandWords.of(uint32(c.Kind)) }

// The first words of commands, whatever their numbers are.
var commandWords = words{ask: func(kind uint32) string {
	word, _, _ := strings.Cut(Command{Kind: Kind(kind)}.String(), " ")
	return word
}}
