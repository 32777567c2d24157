/*
 * stack.h - the stack bytes that the handlers of a paper can need together, by xm23_stack.
 */
#ifndef STACK_H
#define STACK_H

#include "program.h"

struct need {
    unsigned refusal; /* of the library, for a line of the paper */
    uint32_t line;
    unsigned without; /* the first device with a use whose vector nobody states; 8: none */
    uint32_t bytes;   /* where there is neither */
};

/* With the vectors of the paper, and of the program where the paper has none; `a` is all zeros where there is none. */
struct need stack_need(const struct paper *p, const struct assembled *a);

#endif
