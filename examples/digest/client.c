/* A client of `server.c`: it writes squares into the buffer that it shares with the server, and prints the digest of the first
   one, of the first two, and of the first three. A call that is not served ends the thread with the call's status. */

#include "skybridge.h"

#define SERVER 0 /* the number of its process */
#define SQUARES 3

void start(void) {
  struct binding server;
  while (sky_bind(SERVER, &server) != 0)
    ; /* the server has not registered yet */
  for (word count = 1; count <= SQUARES; count++) {
    word reply;
    server.buffer[count - 1] = count * count;
    word status = sky_call(&server, (word)server.buffer, count, &reply);
    if (status != CALL_DONE)
      sky_exit(status);
    sky_print(reply);
  }
  sky_exit(0);
}
