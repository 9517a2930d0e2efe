/* Prints again what nodes are loaded with, as `ttplan` prints it: its rows of processes (node,process,start,end), of slots that a node
   sends in (round,position,channel,node,start,end,capacity,used,messages), and the lines of its node tables. In an empty folder:

   ttplan schedule INSTANCE PLAN --format c > schedule.c
   cc -std=c99 -Wall -Wextra -Werror -I. loads.c schedule.c -o loads && ./loads */
#define TT_DECLARATIONS
#include "schedule.c"
#include <stdio.h>

static const char *const nodes[] = { TT_NAMES_OF_NODES 0 };
static const char *const processes[] = { TT_NAMES_OF_PROCESSES 0 };
static const char *const messages[] = { TT_NAMES_OF_MESSAGES 0 };

static void print_frame(const struct tt_node *n, const struct tt_slot *s, int channel)
{
    unsigned used = 0;
    for (int k = 0; k < s->message_count; k++)
        used += s->messages[k].channel == channel ? s->messages[k].bytes : 0;
    printf("slot,%u,%u,%d,%s,%u,%u,%u,%u,", s->round, s->position, channel, nodes[n->node], s->start, s->end, s->capacity, used);
    const char *before = "";
    for (int k = 0; k < s->message_count; k++)
        if (s->messages[k].channel == channel)
            printf("%s%s", before, messages[s->messages[k].message]), before = " ";
    printf("\n");
}

static void print_row(const struct tt_slot *s)
{
    printf("row %u %u %s %u", s->round, s->position, nodes[s->sender], s->capacity);
    for (int k = 0; k < s->message_count; k++) {
        printf(" %s:", messages[s->messages[k].message]);
        if (TT_CHANNELS == 2)
            printf("%u:", s->messages[k].channel);
        printf("%u", s->messages[k].offset);
    }
    printf("\n");
}

int main(void)
{
    for (const struct tt_node *n = tt_nodes; n < tt_nodes + TT_LOADED; n++) {
        printf("node %s\n", nodes[n->node]);
        for (const struct tt_process *p = n->processes; p < n->processes + n->process_count; p++)
            printf("process,%s,%s,%u,%u\n", nodes[n->node], processes[p->process], p->start, p->end);
        for (const struct tt_slot *s = n->slots; s < n->slots + n->slot_count; s++) {
            print_row(s);
            for (int channel = 0; channel < TT_CHANNELS && s->sender == n->node; channel++)
                print_frame(n, s, channel);
        }
    }
    return 0;
}
