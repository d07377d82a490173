/* The radio: UDP on the loopback interface. Box j has port `port + j`, and a broadcast is a datagram to each other
 * box. UDP's checksum stands for the radio's: a damaged frame is dropped. No call would notice a changed request. */
#ifndef RADIO_H
#define RADIO_H

#include "frame.h"

struct radio {
    int socket;
    uint32_t node, nodes, port;
};

/* 0, or -1 with errno. */
int radio_open(struct radio *r, uint32_t node, uint32_t nodes, uint32_t port);

void radio_broadcast(const struct radio *r, const struct frame *f);

/* The next frame that has been received, and when it was, by the receive time stamp: it may have been queued since.
 * 0 where there is none. */
int radio_receive(const struct radio *r, struct frame *f, int64_t *received);

/* Returns at the time `until`, or earlier if a frame comes. */
void radio_wait(const struct radio *r, int64_t until);

#endif
