package main

/*
#cgo LDFLAGS: -lisal
#include <isa-l/erasure_code.h>

enum { MOST = 16 }; // fragments of a stripe

// Writes rows of sums: each is the sum of the sources, each times its coefficient.
static void combine(int length, int sources, int rows, unsigned char *coefficients, unsigned char *from, unsigned char *to) {
    unsigned char tables[32 * MOST * MOST], *in[MOST], *out[MOST];
    for (int i = 0; i < sources; i++) in[i] = from + (size_t)i * length;
    for (int i = 0; i < rows; i++) out[i] = to + (size_t)i * length;
    ec_init_tables(sources, rows, coefficients, tables);
    ec_encode_data(length, sources, rows, tables, in, out);
}
*/
import "C"

import "bytes"

// combine gives for each row the sum of the sources, each times its coefficient in that row. All sources have one length.
func combine(rows [][]byte, sources [][]byte) [][]byte {
	length := len(sources[0])
	from, to := bytes.Join(sources, nil), make([]byte, len(rows)*length)
	coefficients := bytes.Join(rows, nil)
	if length > 0 {
		C.combine(C.int(length), C.int(len(sources)), C.int(len(rows)), first(coefficients), first(from), first(to))
	}
	return cut(to, length)
}

func first(data []byte) *C.uchar { return (*C.uchar)(&data[0]) }

// cut cuts bytes into pieces of one length.
func cut(data []byte, length int) [][]byte {
	var pieces [][]byte
	for ; length > 0 && len(data) > 0; data = data[length:] {
		pieces = append(pieces, data[:length])
	}
	return pieces
}
