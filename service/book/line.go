package book

/*
#include "lrc_embed.h"
*/
import "C"

// mostReply is the length of the longest line of a reply, with its number and its end.
const mostReply = 220

// ReplyLine is the line that `lrcman run` prints of an entry of the history, with its end; the first is at 0.
func (b *Looks) ReplyLine(index int) (string, error) {
	text, length := make([]byte, mostReply), C.size_t(0)
	err := faultOf(C.lrc_embed_reply_line(b.handle, C.size_t(index), firstByte(text), mostReply, &length))
	return string(text[:length]), err
}
