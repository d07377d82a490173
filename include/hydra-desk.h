/* hydra-desk.h: the calls for desk tools: scripts, and sites in lent memory. Archive
 * libhydra-desk.a, x86-64 only; it needs memcpy and memset of the C library.
 * What hydra.h says of lent memory and of answers holds here too. */
#ifndef HYDRA_DESK_H
#define HYDRA_DESK_H

#include "hydra.h"

/* Calls whose arguments have changed: hydra.h says why they have a symbol of their own. */
#define hydra_replay hydra_replay_2
#define hydra_why hydra_why_2
#define hydra_site_load hydra_site_load_4
#define hydra_site_event hydra_site_event_3
#define hydra_group_load hydra_group_load_2
#define hydra_group_event hydra_group_event_2

#ifdef __cplusplus
extern "C" {
#endif

/* Bytes of a packet area, at least: a site's packets of one phase, 8 from each of 32 boxes. */
#define HYDRA_PACKETS_SIZE 11520

/* ---- Scripts ---- */

/* Runs a whole script: the listing is written to the start of the output, its length to *length.
 * The output needs 9 * min(script_length, 40000) + 30000 bytes; with less the answer
 * is HYDRA_NO_ROOM, and no byte changes. What is wrong with the other arguments is told in the
 * listing, with the answer HYDRA_DONE: the line "0 15" for a packet area under 11,520 bytes and
 * for a script above 40,000 bytes; the line "0 16", behind the lines before the events, for a
 * list of windows or a day that breaks the rules. The list is lent to the load and to each end;
 * NULL and 0 are an empty list, and without windows the day is 1.
 * The first head is "line refusal split" where the settings line was accepted and has split 1,
 * and "line refusal" otherwise. The call needs some 34 kB of stack (docs/measurements.md). */
HYDRA_ANSWER hydra_replay(const uint8_t *script, size_t script_length, uint8_t *area,
                          size_t area_length, uint8_t *out, size_t out_length, uint32_t *length,
                          uint32_t day, const struct hydra_window *windows, size_t windows_length);

/* Why each box sent what it sent, or nothing, at the closes of a script, part by
 * part: part 0 is the head, or the refusal of a script before its events; part j has the lines
 * of node j, LINE NODE RULE MISSING (docs/desk.md). The output needs 4 * min(script_length,
 * 40000) + 100 bytes; with less the answer is HYDRA_NO_ROOM, and no byte changes. Packet area,
 * day and windows are as in hydra_replay, and so is what part 0 tells of them. Refused lines are
 * not told: the listing has them. The call needs some 36 kB of stack. */
HYDRA_ANSWER hydra_why(const uint8_t *script, size_t script_length, uint32_t part, uint8_t *area,
                       size_t area_length, uint8_t *out, size_t out_length, uint32_t *length,
                       uint32_t day, const struct hydra_window *windows, size_t windows_length);

/* A script with no idle event. Of a script that gives a refusal number it writes
 * to the start of the output the settings, the table and those event lines, unchanged and in
 * order, that still give the number; without any one of these lines the number is not given. The
 * length is written to *length, and bytes behind it do not change. The number is kept, not the
 * line that had it or the cause (docs/desk.md).
 * Where the number is given before the first event, the answer ends with the refused line.
 * HYDRA_NO_ROOM for a script above 40,000 bytes or an output shorter than the script, for any
 * number; then HYDRA_NOT_GIVEN for a number that the script does not give. After these no byte
 * changes, nor does *length. The script is run with a day of 1, no windows and a packet area of
 * the call's own. It needs some 118 kB of stack. */
HYDRA_ANSWER hydra_reduce(const uint8_t *script, size_t script_length, uint8_t *out,
                          size_t out_length, uint32_t *length, uint32_t number);

/* ---- A site in lent memory ---- */

/* A tool that keeps a site itself lends these calls HYDRA_SITE_WORDS words and HYDRA_SITE_BYTES
 * bytes or more, a packet area and a tally, each for one site. Nothing else may write them.
 * hydra_site_load comes first. Uninitialised memory is not detected: the calls take it for some
 * site, and a send may then write beyond the first 11,520 bytes of a longer packet area. After a
 * load nothing is written beyond these sizes.
 * A copy of words, bytes, packet area and tally is a copy of the site. */
#define HYDRA_SITE_WORDS 264
#define HYDRA_SITE_BYTES 24769

/* The events of a site, as a script has them. */
enum hydra_event {
    HYDRA_SEND = 1,
    HYDRA_HEAR = 2,
    HYDRA_CLOSE = 3,
    HYDRA_TAKE = 4,
    HYDRA_END = 5,
    HYDRA_WANT = 6,
    HYDRA_CRASH = 7,
    HYDRA_RESTART = 8
};

/* What a listing shows of a node, in bytes. Version and flags are words. The owner of slot k + 1
 * is the byte at HYDRA_SHOWN_OWNERS + k. A node that is waiting or down shows its state and
 * zeros. */
#define HYDRA_SHOWN_SIZE 90
#define HYDRA_SHOWN_STATE 0
#define HYDRA_SHOWN_VERSION 1
#define HYDRA_SHOWN_FLAGS 5
#define HYDRA_SHOWN_REQUEST 9
#define HYDRA_SHOWN_OWNERS 10

/* The byte of a shown state. */
enum hydra_state { HYDRA_STATE_DOWN = 0, HYDRA_STATE_WAITING = 1, HYDRA_STATE_LIVE = 2 };

/* The slots held at a site: how many epochs are counted; of node j, at index j - 1, the slots
 * that it held by its own schedule as each of them began, added up, and in how many it had at
 * least one; and the site's total, counted slot by slot. A node that is waiting or down holds
 * none. With split 1 a slot that two nodes hold counts for both.
 * A tool reads the tally as it is. It may set it to a copy, or to zeros: these count from the
 * next epoch on. Nothing else but the calls may write it. */
struct hydra_tally {
    uint32_t epochs;
    uint32_t total;
    uint32_t slots[HYDRA_TOP_NODES];
    uint32_t held[HYDRA_TOP_NODES];
};

#define HYDRA_TALLY_EPOCHS 100000

/* Whether a tally is full: then it stays as it is. */
#define HYDRA_TALLY_FULL(tally) ((tally).epochs == HYDRA_TALLY_EPOCHS)

/* The order of answers, in each of the three calls below: first HYDRA_NO_ROOM for anything that is
 * lent and too short; then the lowest number that applies. */

/* Bytes of the reports of a close: of node j the ground, as hydra_close gives it to a box, at
 * HYDRA_GROUND_SIZE * (j - 1). Both bytes are 0 of a node that is not live. */
#define HYDRA_REPORTS_SIZE (HYDRA_GROUND_SIZE * HYDRA_TOP_NODES)

/* Loads a site: N, K, F, heard, split, and for each node three words of `rows`: version, flags,
 * want. Its day has `day` epochs, and `windows` gives the demands of the first of them. NULL and
 * 0 are an empty list, and without windows the day is 1.
 * The lengths of words and rows count words, that of windows counts windows. HYDRA_NO_ROOM for
 * words or bytes that are too few; 2 for a number out of range and for rows that are not 3 * N
 * words; HYDRA_BAD_WINDOWS for the day, 1 to 1,440, or the windows. The tally becomes that of a
 * site in its first epoch: epochs 1, all else 0. A refused load leaves it as it was. */
HYDRA_ANSWER hydra_site_load(uint32_t *words, size_t words_length, uint8_t *bytes,
                             size_t bytes_length, uint32_t nodes, uint32_t slots, uint32_t rounds,
                             uint32_t heard, uint32_t split, const uint32_t *rows,
                             size_t rows_length, uint32_t day, const struct hydra_window *windows,
                             size_t windows_length, struct hydra_tally *tally);

/* One event of a site, by its three numbers as a line of a script has them. HYDRA_NO_ROOM for
 * words, bytes or a packet area that are too few, and for 1 to 63 bytes of `reports`; 2 for a
 * number that is no event and for a place that is not 0 where the script's line has 0; then as
 * the line of a script is refused; then, for an end, HYDRA_NOT_A_NODE for the tally; then, for
 * any event, HYDRA_BAD_WINDOWS for the windows.
 * Every call is lent the same windows as the load, or others: they hold for the site's day. Only
 * an end gives demands: one that begins an epoch gives those of that epoch. Any other event only
 * tests the windows, and without them does the same (tests/c/machine.c): lend it none, since to
 * test 64 windows takes about as long as the event.
 * The tally breaks the rules with more than 100,000 epochs, a node's held epochs above the
 * epochs, its slots above 80 times its held epochs, or a total that is not the sum of the slots.
 * An accepted end of an epoch's last round counts one epoch more, with the schedules after the
 * end; a full tally stays as it is. No other event changes a number of the tally.
 * An accepted close writes the HYDRA_REPORTS_SIZE bytes of its reports to the start of `reports`.
 * No other event, and no refused one, writes there. NULL and 0 where no reports are wanted.
 * Every event, a refused one too, reads the windows and the whole tally, and writes the tally
 * back: it must be memory that can be written, and not NULL (tests/c/lent-memory.c). */
HYDRA_ANSWER hydra_site_event(uint32_t *words, size_t words_length, uint8_t *bytes,
                              size_t bytes_length, uint8_t *area, size_t area_length,
                              uint32_t event, uint32_t node, uint32_t with,
                              const struct hydra_window *windows, size_t windows_length,
                              struct hydra_tally *tally, uint8_t *reports, size_t reports_length);

/* What a listing shows of a node, HYDRA_SHOWN_SIZE bytes at the start of the output.
 * HYDRA_NO_ROOM for words, bytes or an output that are too few, then HYDRA_NO_SUCH_NODE for a
 * number outside 1 to N. */
HYDRA_ANSWER hydra_site_node(const uint32_t *words, size_t words_length, const uint8_t *bytes,
                             size_t bytes_length, uint32_t node, uint8_t *out, size_t out_length);

/* ---- Up to eight sites with one packet area ---- */

/* A group has HYDRA_GROUP_WORDS words and HYDRA_GROUP_BYTES bytes for the storage of its sites,
 * a table of HYDRA_GROUP_TABLE words, and one packet area, or more of each. Nothing else may
 * write them.
 * A site has room for 16 packets of its own in a phase. The sites share 128 more. A packet takes
 * the free place with the lowest number of the area's 256; a close or a load of its site frees
 * it. Packets are numbered by site. What a site answers and holds depends on its own calls
 * alone, except for which of its sends answer HYDRA_CROWDED. */
#define HYDRA_GROUP_SITES 8
#define HYDRA_GROUP_WORDS (HYDRA_GROUP_SITES * 262)
#define HYDRA_GROUP_BYTES (HYDRA_GROUP_SITES * HYDRA_SITE_BYTES)
#define HYDRA_GROUP_TABLE (256 + 3 * HYDRA_GROUP_SITES)

/* Makes a group in which nothing is loaded and every place is free. Call this before any other
 * group call: uninitialised memory is not detected. HYDRA_NO_ROOM for words, bytes or a table
 * that are too few. */
HYDRA_ANSWER hydra_group_begin(const uint32_t *words, size_t words_length, const uint8_t *bytes,
                               size_t bytes_length, uint32_t *table, size_t table_length);

/* The order of answers, in each of the three calls below: first HYDRA_NO_SUCH_NODE for a number
 * outside 1 to 8, HYDRA_NO_ROOM for words, bytes or a table that are too few, and
 * HYDRA_NO_SUCH_NODE where nothing is loaded, but for a load; then as of a site alone, and
 * HYDRA_CROWDED last. */

/* Loads a site at a number, in place of one that was there: as hydra_site_load. The tally is that
 * of the number: a group keeps one for each, and every call of a number is lent its own. A refused
 * load changes nothing: the site that was there goes on. */
HYDRA_ANSWER hydra_group_load(uint32_t *words, size_t words_length, uint8_t *bytes,
                              size_t bytes_length, uint32_t *table, size_t table_length,
                              uint32_t number, uint32_t nodes, uint32_t slots, uint32_t rounds,
                              uint32_t heard, uint32_t split, const uint32_t *rows,
                              size_t rows_length, uint32_t day,
                              const struct hydra_window *windows, size_t windows_length,
                              struct hydra_tally *tally);

/* One event of the site at a number, with windows, the number's tally and an output for reports:
 * as hydra_site_event. HYDRA_CROWDED for a send that finds no place. */
HYDRA_ANSWER hydra_group_event(uint32_t *words, size_t words_length, uint8_t *bytes,
                               size_t bytes_length, uint32_t *table, size_t table_length,
                               uint8_t *area, size_t area_length, uint32_t number, uint32_t event,
                               uint32_t node, uint32_t with, const struct hydra_window *windows,
                               size_t windows_length, struct hydra_tally *tally, uint8_t *reports,
                               size_t reports_length);

/* What a listing shows of a node of the site at a number: as hydra_site_node. */
HYDRA_ANSWER hydra_group_node(const uint32_t *words, size_t words_length, const uint8_t *bytes,
                              size_t bytes_length, const uint32_t *table, size_t table_length,
                              uint32_t number, uint32_t node, uint8_t *out, size_t out_length);

#ifdef __cplusplus
}
#endif

#endif
