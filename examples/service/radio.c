#define _GNU_SOURCE
#include "radio.h"

#include <arpa/inet.h>
#include <poll.h>
#include <string.h>
#include <sys/socket.h>
#include <time.h>

static struct sockaddr_in address(const struct radio *r, uint32_t node)
{
    struct sockaddr_in a = {.sin_family = AF_INET, .sin_port = htons((uint16_t)(r->port + node))};
    a.sin_addr.s_addr = htonl(INADDR_LOOPBACK);
    return a;
}

int radio_open(struct radio *r, uint32_t node, uint32_t nodes, uint32_t port)
{
    static const int on = 1;
    *r = (struct radio){socket(AF_INET, SOCK_DGRAM | SOCK_NONBLOCK, 0), node, nodes, port};
    struct sockaddr_in own = address(r, node);
    if (r->socket < 0 || setsockopt(r->socket, SOL_SOCKET, SO_TIMESTAMPNS, &on, sizeof on) != 0)
        return -1;
    return bind(r->socket, (const struct sockaddr *)&own, sizeof own);
}

void radio_broadcast(const struct radio *r, const struct frame *f)
{
    uint8_t bytes[FRAME_TOP_SIZE];
    size_t length = frame_write(f, bytes);
    for (uint32_t j = 1; j <= r->nodes; j++) {
        struct sockaddr_in to = address(r, j);
        if (j != r->node) /* a box that is down hears nothing, and that is no error */
            (void)sendto(r->socket, bytes, length, 0, (const struct sockaddr *)&to, sizeof to);
    }
}

/* Microseconds that a datagram has waited in the queue. Its time stamp is of the real-time clock; one from the future
 * says that this clock was set back, and tells nothing. */
static int64_t waited(struct msghdr *m)
{
    struct timespec stamp, t;
    struct cmsghdr *c = CMSG_FIRSTHDR(m);
    if (c == NULL || c->cmsg_level != SOL_SOCKET || c->cmsg_type != SCM_TIMESTAMPNS)
        return INT32_MAX;
    memcpy(&stamp, CMSG_DATA(c), sizeof stamp);
    clock_gettime(CLOCK_REALTIME, &t);
    int64_t time = (int64_t)(t.tv_sec - stamp.tv_sec) * 1000000 + (t.tv_nsec - stamp.tv_nsec) / 1000;
    return time >= 0 ? time : INT32_MAX;
}

int radio_receive(const struct radio *r, struct frame *f, int64_t *received)
{
    uint8_t bytes[FRAME_TOP_SIZE + 1]; /* a longer datagram is seen to be no frame */
    union {
        struct cmsghdr head;
        uint8_t room[CMSG_SPACE(sizeof(struct timespec))];
    } control;
    for (;;) {
        struct iovec data = {bytes, sizeof bytes};
        struct msghdr m = {
            .msg_iov = &data, .msg_iovlen = 1, .msg_control = &control, .msg_controllen = sizeof control};
        ssize_t length = recvmsg(r->socket, &m, 0);
        if (length < 0)
            return 0;
        *received = now() - waited(&m);
        if (frame_read(bytes, (size_t)length, f))
            return 1;
    }
}

void radio_wait(const struct radio *r, int64_t until)
{
    int64_t left = until - now();
    struct pollfd p = {.fd = r->socket, .events = POLLIN};
    struct timespec t = {.tv_sec = left / 1000000, .tv_nsec = left % 1000000 * 1000};
    if (left > 0)
        (void)ppoll(&p, 1, &t, NULL);
}
