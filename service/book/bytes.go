package book

/*
#include "lrc_embed.h"

// Go memory is named to C by arguments, and not in an array: so each fragment of a stripe is an argument.
typedef uint8_t *at;

static uint32_t encode(uint8_t code, size_t data, size_t parities, const size_t *lengths, at f0, at f1, at f2, at f3, at f4, at f5,
                       at f6, at f7, at f8, at f9, at f10, at f11, at f12, at f13, at f14, at f15) {
    const at fragments[LRC_FRAGMENTS] = {f0, f1, f2, f3, f4, f5, f6, f7, f8, f9, f10, f11, f12, f13, f14, f15};
    lrc_bytes from[LRC_FRAGMENTS];
    lrc_buffer to[LRC_FRAGMENTS];
    for (size_t i = 0; i < data; i++) from[i] = (lrc_bytes){fragments[i], lengths[i]};
    for (size_t i = 0; i < parities; i++) to[i] = (lrc_buffer){fragments[data + i], lengths[data + i]};
    return lrc_embed_encode(code, from, data, to, parities);
}

static uint32_t rebuild(const lrc_recipe *recipe, size_t count, const size_t *lengths, at f0, at f1, at f2, at f3, at f4, at f5, at f6,
                        at f7, at f8, at f9, at f10, at f11, at f12, at f13, at f14, at f15, at rebuilt, size_t length) {
    const at fragments[LRC_FRAGMENTS] = {f0, f1, f2, f3, f4, f5, f6, f7, f8, f9, f10, f11, f12, f13, f14, f15};
    lrc_bytes from[LRC_FRAGMENTS];
    for (size_t i = 0; i < count; i++) from[i] = (lrc_bytes){fragments[i], lengths[i]};
    return lrc_embed_rebuild(recipe, from, count, rebuilt, length);
}
*/
import "C"

import "unsafe"

// fragmentsOf are the first byte and the length of each of these buffers, which are at most as many as a stripe has.
func fragmentsOf(buffers ...[]byte) (at [Fragments]*C.uint8_t, lengths [Fragments]C.size_t) {
	for i, buffer := range buffers {
		at[i], lengths[i] = firstByte(buffer), C.size_t(len(buffer))
	}
	return at, lengths
}

// Encode writes the four parities of a stripe of the code, in order. The data fragments stand in order, 12 of the wide code and 6 of the
// narrow one. All have one length, which may be 0, and no parity overlaps another buffer. After a fault nothing is written: it says that
// there is no such code, or that the buffers are too many, too few or of several lengths. Any goroutines may call this at once.
func Encode(code Code, data, parities [][]byte) error {
	if len(data)+len(parities) > Fragments {
		return &Fault{Status: C.LRC_MISCOUNTED}
	}
	f, lengths := fragmentsOf(append(append([][]byte{}, data...), parities...)...)
	return faultOf(C.encode(C.uint8_t(code), C.size_t(len(data)), C.size_t(len(parities)), &lengths[0], f[0], f[1], f[2], f[3], f[4],
		f[5], f[6], f[7], f[8], f[9], f[10], f[11], f[12], f[13], f[14], f[15]))
}

// Rebuild writes the fragment that the recipe makes of the others. The fragments of the stripe stand by number, 16 or 10: those whose
// coefficient is not 0 are as long as the rebuilt one, which overlaps none of them; the others are not read, and may be nil. After a
// fault nothing is written: it says that this is no recipe, or that the buffers are too many, too few or of other lengths. Any goroutines
// may call this at once.
func (r *Recipe) Rebuild(fragments [][]byte, rebuilt []byte) error {
	if len(fragments) > Fragments {
		return &Fault{Status: C.LRC_MISCOUNTED}
	}
	f, lengths := fragmentsOf(fragments...)
	return faultOf(C.rebuild((*C.lrc_recipe)(unsafe.Pointer(r)), C.size_t(len(fragments)), &lengths[0], f[0], f[1], f[2], f[3], f[4],
		f[5], f[6], f[7], f[8], f[9], f[10], f[11], f[12], f[13], f[14], f[15], firstByte(rebuilt), C.size_t(len(rebuilt))))
}
