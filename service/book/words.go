package book

/*
#include "lrc_embed.h"

// The tables of words of the library: a word for each number of one kind.
enum { STATUSES, REPLIES, REFUSALS, LEVELS, MODES, CODES, REPAIRS, LINES, CAUSES, NODES };

static uint32_t word_of(int table, uint32_t number, uint8_t *text, size_t room, size_t *length) {
    switch (table) {
    case STATUSES: return lrc_embed_status_name(number, text, room, length);
    case REPLIES: return lrc_embed_reply_name((uint8_t)number, text, room, length);
    case REFUSALS: return lrc_embed_refusal_name((uint8_t)number, text, room, length);
    case LEVELS: return lrc_embed_level_name((uint8_t)number, text, room, length);
    case MODES: return lrc_embed_mode_name((uint8_t)number, text, room, length);
    case CODES: return lrc_embed_code_name((uint8_t)number, text, room, length);
    case REPAIRS: return lrc_embed_repair_name((uint8_t)number, text, room, length);
    case LINES: return lrc_embed_line_words(number, text, room, length);
    case CAUSES: return lrc_embed_cause_words(number, text, room, length);
    }
    return lrc_embed_nodes_words(number, text, room, length);
}
*/
import "C"

import "sync"

// mostWords is the length of the longest words.
const mostWords = 80

// words are those that the library has for numbers up to 255. They are asked for once.
type words struct {
	ask  func(number uint32) string
	once sync.Once
	all  [256]string
}

// of are the words for a number; "" if it has none.
func (w *words) of(number uint32) string {
	w.once.Do(func() {
		for i := range w.all {
			w.all[i] = w.ask(uint32(i))
		}
	})
	if number >= uint32(len(w.all)) {
		return ""
	}
	return w.all[number]
}

func wordsOf(table C.int) func(uint32) string {
	return func(number uint32) string {
		text, length := make([]byte, mostWords), C.size_t(0)
		if C.word_of(table, C.uint32_t(number), firstByte(text), mostWords, &length) != C.LRC_DONE {
			return ""
		}
		return string(text[:length])
	}
}

var (
	statusWords  = words{ask: wordsOf(C.STATUSES)}
	replyWords   = words{ask: wordsOf(C.REPLIES)}
	refusalWords = words{ask: wordsOf(C.REFUSALS)}
	levelWords   = words{ask: wordsOf(C.LEVELS)}
	modeWords    = words{ask: wordsOf(C.MODES)}
	codeWords    = words{ask: wordsOf(C.CODES)}
	repairWords  = words{ask: wordsOf(C.REPAIRS)}
	lineWords    = words{ask: wordsOf(C.LINES)}
	causeWords   = words{ask: wordsOf(C.CAUSES)}
	nodesWords   = words{ask: wordsOf(C.NODES)} // by status
)

// RefusalName is the word for a refusal, or "".
func RefusalName(refusal uint8) string { return refusalWords.of(uint32(refusal)) }
