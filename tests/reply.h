/* Room for any reply, for the programs that make every call: calls.c, answers.c and stack.c. */
#ifndef REPLY_H
#define REPLY_H

#include "nerupazhil.h"

union reply {
    uint64_t numbers[20]; /* some more than any reply has */
    struct nerupazhil_check_reply check;
    struct nerupazhil_entry_reply entry;
    struct nerupazhil_node_reply node;
    struct nerupazhil_undo_reply undo;
    struct nerupazhil_start_reply start;
    struct nerupazhil_step_reply step;
    struct nerupazhil_write_reply write;
};

#endif
