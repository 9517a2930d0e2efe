/* What nodes are loaded with, by `ttplan schedule --format c`, of a valid plan.
   delay 9 ticks
   instance SHA-256 a56b70941cded6c3919f3c34c96b83fcd31aac6b8b5999e3ac1d07e30bd9184d
   plan     SHA-256 510c0d3ed670bca5a0e738602aae23e3e8a5807906a4ee75dd6aa0f6acf5333c
   It defines tt_nodes; with TT_DECLARATIONS defined it only declares it. */
#ifndef TT_SCHEDULE
#define TT_SCHEDULE
#include <stdint.h>

#define TT_DELAY 9
#define TT_ROUND 4
#define TT_ROUNDS 3
#define TT_CYCLE 12
#define TT_CHANNELS 1
#define TT_LOADED 2

#define TT_NODES 2
#define TT_NODE_A 0
#define TT_NODE_B 1
#define TT_NAMES_OF_NODES \
    "A", \
    "B", \


#define TT_PROCESSES 2
#define TT_PROCESS_p 0
#define TT_PROCESS_q 1
#define TT_NAMES_OF_PROCESSES \
    "p", \
    "q", \


#define TT_MESSAGES 1
#define TT_MESSAGE_m 0
#define TT_NAMES_OF_MESSAGES \
    "m", \


struct tt_process {
    uint16_t process;
    uint32_t start, end;
};

struct tt_message {
    uint16_t message;
    uint8_t channel;
    uint16_t offset, bytes;
};

struct tt_slot {
    uint32_t round;
    uint8_t position, sender;
    uint32_t start, end;
    uint16_t capacity, message_count;
    const struct tt_message *messages;
};

struct tt_node {
    uint8_t node;
    uint16_t process_count;
    const struct tt_process *processes;
    uint32_t slot_count;
    const struct tt_slot *slots;
};

extern const struct tt_node tt_nodes[TT_LOADED];
#endif

#ifndef TT_DECLARATIONS

static const struct tt_process tt_processes_A[] = {
    { TT_PROCESS_p, 0, 3 },
};

static const struct tt_message tt_frame_1_0_A[] = {
    { TT_MESSAGE_m, 0, 0, 2 },
};

static const struct tt_slot tt_slots_A[] = {
    { 0, 0, TT_NODE_A, 0, 3, 2, 0, 0 },
    { 0, 1, TT_NODE_B, 3, 4, 0, 0, 0 },
    { 1, 0, TT_NODE_A, 4, 7, 2, 1, tt_frame_1_0_A },
    { 1, 1, TT_NODE_B, 7, 8, 0, 0, 0 },
    { 2, 0, TT_NODE_A, 8, 11, 2, 0, 0 },
    { 2, 1, TT_NODE_B, 11, 12, 0, 0, 0 },
};

static const struct tt_process tt_processes_B[] = {
    { TT_PROCESS_q, 7, 9 },
};

static const struct tt_message tt_frame_1_0_B[] = {
    { TT_MESSAGE_m, 0, 0, 2 },
};

static const struct tt_slot tt_slots_B[] = {
    { 0, 0, TT_NODE_A, 0, 3, 2, 0, 0 },
    { 0, 1, TT_NODE_B, 3, 4, 0, 0, 0 },
    { 1, 0, TT_NODE_A, 4, 7, 2, 1, tt_frame_1_0_B },
    { 1, 1, TT_NODE_B, 7, 8, 0, 0, 0 },
    { 2, 0, TT_NODE_A, 8, 11, 2, 0, 0 },
    { 2, 1, TT_NODE_B, 11, 12, 0, 0, 0 },
};

const struct tt_node tt_nodes[TT_LOADED] = {
    { TT_NODE_A, 1, tt_processes_A, 6, tt_slots_A },
    { TT_NODE_B, 1, tt_processes_B, 6, tt_slots_B },
};
#endif
