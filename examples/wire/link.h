/* Bytes between two processes over a stream socket. Every function that says so returns false when the other end has left. */
#ifndef LINK_H
#define LINK_H

#include <stdbool.h>
#include <stddef.h>
#include <stdint.h>

bool link_write(int link, const void *bytes, size_t length);
bool link_read(int link, void *bytes, size_t length);

/* Whether something has come, the end included. Does not block. */
bool link_ready(int link);

/* A message of the engine, framed by one byte of length, since a stream keeps no boundaries. */
bool link_send(int link, const uint8_t *message, size_t length);

/* The buffer has PEWTERSLUG_MESSAGE_BYTES; the result is the message's length, and 0 at the end. */
size_t link_receive(int link, uint8_t *message);

#endif
