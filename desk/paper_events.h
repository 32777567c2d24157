/*
 * paper_events.h - the lines of a paper that give events. 0 where there is a mistake, which has been told; which events
 * are lawful is the library's to say.
 */
#ifndef PAPER_EVENTS_H
#define PAPER_EVENTS_H

#include "paper_word.h"

int take_event(struct rest *r); /* STEP DEVICE BYTE */
int take_every(struct rest *r); /* behind the word: PERIOD from STEP to STEP DEVICE BYTE */
int take_type(struct rest *r);  /* behind the word: STEP every PERIOD DEVICE "TEXT" */

#endif
