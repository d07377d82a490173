/* The thin parts of the header: what they read from a node area is what hydra_read tells, slot by slot, through three
 * epochs of five boxes; every answer and every rule has words of its own. */
#include "hydra-desk.h"

#include <string.h>

#include "expect.h"

enum { BOXES = 5 };

static struct hydra_node box[BOXES];

/* What the inline parts say of a box against its report. */
static void looks(uint32_t j)
{
    const struct hydra_node *node = &box[j - 1];
    struct hydra_report report;
    uint64_t told[HYDRA_SLOTS_SIZE] = {0};
    uint32_t owned = 0, answer = hydra_slots(node->bytes, HYDRA_NODE_SIZE, told, HYDRA_SLOTS_SIZE);
    EXPECT(hydra_node_read(node, &report) == HYDRA_DONE);
    EXPECT(answer == (report.phase == HYDRA_NEGOTIATION ? HYDRA_DONE : HYDRA_WRONG_PHASE));
    EXPECT(hydra_node_version(node) == report.version);
    EXPECT(hydra_node_phase(node) == report.phase);
    for (uint32_t slot = 0; slot <= HYDRA_TOP_SLOTS + 1; slot++) {
        int own = slot >= 1 && slot <= HYDRA_TOP_SLOTS && report.owners[slot - 1] == j && report.phase == HYDRA_NEGOTIATION;
        EXPECT(hydra_owns(node, slot) == own);
        EXPECT(hydra_slot_in(told, slot) == own);
        owned += (uint32_t)own;
    }
    EXPECT(hydra_owned(node) == owned && told[2] == owned);
}

static void all_look(void)
{
    for (uint32_t j = 1; j <= BOXES; j++)
        looks(j);
}

static void all_hear_all(void)
{
    uint8_t packet[HYDRA_PACKET_SIZE];
    for (int i = 0; i < BOXES; i++) {
        EXPECT(hydra_send(box[i].bytes, HYDRA_NODE_SIZE, packet, sizeof packet) == HYDRA_DONE);
        for (int j = 0; j < BOXES; j++)
            if (i != j)
                EXPECT(hydra_hear(box[j].bytes, HYDRA_NODE_SIZE, packet, sizeof packet) == HYDRA_DONE);
    }
}

/* A round in which all hear all; returns how many slots box 1 uses as the next one starts. */
static uint32_t one_round(void)
{
    uint8_t schedule[HYDRA_SCHEDULE_SIZE], ground[HYDRA_GROUND_SIZE];
    all_hear_all();
    for (int i = 0; i < BOXES; i++)
        EXPECT(hydra_close(box[i].bytes, HYDRA_NODE_SIZE, schedule, sizeof schedule, ground, sizeof ground) == HYDRA_DONE);
    all_look();
    for (int i = 0; i < BOXES; i++)
        EXPECT(hydra_end(box[i].bytes, HYDRA_NODE_SIZE) == HYDRA_DONE);
    all_look();
    return hydra_owned(&box[0]);
}

/* Each text is there, and no two are the same. */
static void all_different(const char *(*text)(uint32_t), uint32_t count)
{
    for (uint32_t i = 0; i < count; i++)
        for (uint32_t j = 0; j < i; j++)
            EXPECT(strcmp(text(i), text(j)) != 0);
}

int main(void)
{
    const struct hydra_settings site = {.nodes = BOXES, .slots = 80, .rounds = 1, .heard = 1, .split = 0};
    struct hydra_report kept = {.version = 7};
    EXPECT(sizeof(struct hydra_node) == HYDRA_NODE_SIZE);
    for (uint32_t j = 1; j <= BOXES; j++)
        EXPECT(hydra_node_begin(&box[j - 1], j, &site, 0, 31, 15) == HYDRA_DONE);
    all_look();
    EXPECT(one_round() == 15);
    EXPECT(one_round() == 15);
    EXPECT(hydra_node_restart(&box[0], 1, &site, 31, 0) == HYDRA_DONE);
    looks(1);

    box[0].bytes[HYDRA_NODE_PHASE] = 9;
    EXPECT(hydra_node_read(&box[0], &kept) == HYDRA_NOT_A_NODE && kept.version == 7);
    all_different(hydra_answer_text, HYDRA_NOT_GIVEN + 2);
    all_different(hydra_rule_text, HYDRA_RULE_SENT + 1);
    EXPECT(hydra_version() / 1000000 == HYDRA_VERSION_MAJOR);
    return 0;
}
