/* Running a program on the layer or on a real ring, judged by the model as it goes. */
#ifndef RUN_H
#define RUN_H

#include "program.h"

/* What a plain program comes to, whatever the order. */
struct outcome {
    int32_t results[MOST_ACTIONS]; /* of each entry, or NO_RESULT */
    uint32_t posts[MOST_ACTIONS]; /* how many completions it had */
    uint8_t cells[MOST_RINGS][MOST_ACTIONS * CELL];
};

/* Runs it. A wrong answer ends the process. */
void run_program(const struct program *program, bool is_kernel, struct outcome *outcome);

#endif
