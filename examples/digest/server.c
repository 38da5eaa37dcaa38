/* A server that answers with the digest of words in its client's buffer: FNV-1a with words in place of bytes. */

#include "skybridge.h"

#define BASIS 0xCBF29CE484222325
#define PRIME 0x100000001B3

void handler(void); /* in handler.s */

word calls; /* answered so far */

word digest(const word *words, word count) {
  word state = BASIS;
  for (; count != 0; count--, words++)
    state = (state ^ *words) * PRIME;
  calls += 1;
  return state;
}

void start(void) {
  sky_exit(sky_register(handler, 2)); /* the thread ends, the server stays */
}
