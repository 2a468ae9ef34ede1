// Calls the proved library: reads batches of frames from standard input, makes the call that each
// frame names on the buffers that it holds, and writes what each call answered and left.
//
// All in 64-bit words. A batch is its length in bytes, then its frames; it is answered as a whole,
// in the same way. A frame is the call's number, the count of its parameters, and for each a word
// kind + (element size << 8) + (length << 16): kind 0, a number, which follows; 1, a slice, and 2, an
// array, whose bytes follow, filled up to whole words. An answer is what the call returned, then
// the bytes of every slice and array.
//
// A slice goes as its address and length, an array as its address, any number in a whole word: the
// calling convention of x86-64 Linux, for which the library is compiled.
typedef unsigned long word;
typedef unsigned char byte;

extern long read(int, void *, word);
extern long write(int, const void *, word);
extern void *malloc(word);
extern void free(void *);
extern void *memcpy(void *, const void *, word);

#define CALL(name) extern unsigned name(void);
#include "calls.h"
#undef CALL

typedef unsigned call(word, word, word, word, word, word, word, word, word, word, word, word, word,
                      word, word, word, word, word, word, word, word, word, word, word, word, word,
                      word, word, word, word, word, word, word, word, word, word);

static call *const calls[] = {
#define CALL(name) (call *)name,
#include "calls.h"
};

static int all(int reading, byte *at, word count) {
    while (count) {
        long moved = reading ? read(0, at, count) : write(1, at, count);
        if (moved <= 0)
            return 0;
        at += moved;
        count -= (word)moved;
    }
    return 1;
}

// Makes the call of a frame; answers where the next frame begins.
static byte *serve(byte *frame, byte **out) {
    word *w = (word *)frame, a[36] = {0}, n = 0, size[36];
    byte *part[36];
    unsigned parts = 0;
    call *f = calls[w[0]];
    word left = w[1];
    for (w += 2; left; left--) {
        word kind = *w & 255, bytes = (*w >> 8 & 255) * (*w >> 16);
        if (kind == 0) {
            a[n++] = w[1];
            w += 2;
            continue;
        }
        a[n++] = (word)(w + 1);
        if (kind == 1)
            a[n++] = *w >> 16;
        part[parts] = (byte *)(w + 1);
        size[parts] = bytes + 7 & ~7ul;
        w += 1 + size[parts++] / 8;
    }
    *(word *)*out = f(a[0], a[1], a[2], a[3], a[4], a[5], a[6], a[7], a[8], a[9], a[10], a[11],
                      a[12], a[13], a[14], a[15], a[16], a[17], a[18], a[19], a[20], a[21], a[22],
                      a[23], a[24], a[25], a[26], a[27], a[28], a[29], a[30], a[31], a[32], a[33],
                      a[34], a[35]);
    *out += 8;
    for (unsigned i = 0; i < parts; i++) {
        memcpy(*out, part[i], size[i]);
        *out += size[i];
    }
    return (byte *)w;
}

int main(void) {
    word bytes;
    while (all(1, (byte *)&bytes, 8)) {
        byte *in = malloc(bytes + 8), *answer = malloc(bytes + 16);
        if (!in || !answer || !all(1, in, bytes))
            return 1;
        byte *out = answer + 8;
        for (byte *at = in; at < in + bytes;)
            at = serve(at, &out);
        *(word *)answer = (word)(out - answer) - 8;
        if (!all(0, answer, (word)(out - answer)))
            return 1;
        free(in);
        free(answer);
    }
    return 0;
}
