/* How much stack each call needs: the call runs on a stack of our own that was painted before, and the highest painted byte that is gone is its depth.
 * The script on standard input is the one that hydra_replay and hydra_why run and hydra_reduce reduces. Prints the depths; nothing is tested, since the figures are the compiler's. */
#define _GNU_SOURCE
#include <pthread.h>
#include <stdint.h>
#include <stdio.h>
#include <string.h>

#include "hydra-desk.h"

enum { STACK = 1 << 20, PAINT = 0xC3 };

static uint8_t stack[STACK] __attribute__((aligned(4096)));
static uint8_t area[HYDRA_NODE_SIZE], other[HYDRA_NODE_SIZE];
static uint8_t packet[HYDRA_PACKET_SIZE], schedule[HYDRA_SCHEDULE_SIZE], ground[HYDRA_GROUND_SIZE], report[HYDRA_REPORT_SIZE];
static uint8_t script[40000], packets[HYDRA_PACKETS_SIZE], listing[390000];
static size_t script_length;
static volatile uint32_t sink;

static void *nothing(void *arg)
{
    return arg;
}

static void *run_send(void *arg)
{
    sink += hydra_send(area, sizeof area, packet, sizeof packet);
    return arg;
}

static void *run_hear(void *arg)
{
    sink += hydra_hear(other, sizeof other, packet, sizeof packet);
    return arg;
}

static void *run_close(void *arg)
{
    sink += hydra_close(other, sizeof other, schedule, sizeof schedule, ground, sizeof ground);
    return arg;
}

static void *run_take(void *arg)
{
    sink += hydra_take(area, sizeof area, schedule, sizeof schedule);
    return arg;
}

static void *run_end(void *arg)
{
    sink += hydra_end(area, sizeof area);
    return arg;
}

static void *run_read(void *arg)
{
    sink += hydra_read(area, sizeof area, report, sizeof report);
    return arg;
}

static void *run_slots(void *arg)
{
    uint64_t own[HYDRA_SLOTS_SIZE];
    sink += hydra_slots(area, sizeof area, own, HYDRA_SLOTS_SIZE);
    return arg;
}

static void *run_replay(void *arg)
{
    uint32_t length;
    sink += hydra_replay(script, script_length, packets, sizeof packets, listing, sizeof listing, &length, 1, NULL, 0);
    return arg;
}

static void *run_why(void *arg)
{
    uint32_t length;
    sink += hydra_why(script, script_length, 1, packets, sizeof packets, listing, sizeof listing, &length, 1, NULL, 0);
    return arg;
}

static void *run_reduce(void *arg)
{
    uint32_t length;
    sink += hydra_reduce(script, script_length, listing, sizeof listing, &length, 5);
    return arg;
}

static size_t depth(void *(*call)(void *))
{
    pthread_attr_t attr;
    pthread_t thread;
    size_t free_bytes = 0;
    memset(stack, PAINT, sizeof stack);
    pthread_attr_init(&attr);
    pthread_attr_setstack(&attr, stack, sizeof stack);
    pthread_create(&thread, &attr, call, NULL);
    pthread_join(thread, NULL);
    pthread_attr_destroy(&attr);
    while (free_bytes < sizeof stack && stack[free_bytes] == PAINT)
        free_bytes++;
    return sizeof stack - free_bytes;
}

int main(void)
{
    size_t base = depth(nothing);
    sink += hydra_begin(area, sizeof area, 1, 2, 80, 1, 1, 0, 1, 3, 7);
    sink += hydra_begin(other, sizeof other, 2, 2, 80, 1, 1, 0, 1, 3, 7);
    printf("bytes of stack: send %zu", depth(run_send) - base);
    printf(", hear %zu", depth(run_hear) - base);
    printf(", close %zu", depth(run_close) - base);
    sink += hydra_close(area, sizeof area, schedule, 0, ground, sizeof ground);
    printf(", take %zu", depth(run_take) - base);
    printf(", end %zu", depth(run_end) - base);
    printf(", read %zu", depth(run_read) - base);
    printf(", slots %zu", depth(run_slots) - base);
    script_length = fread(script, 1, sizeof script, stdin);
    printf(", replay %zu, why %zu", depth(run_replay) - base, depth(run_why) - base);
    printf(", reduce for the number 5 %zu\n", depth(run_reduce) - base);
    return 0;
}
