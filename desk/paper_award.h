/*
 * paper_award.h - the lines of a paper that give points. 0 where there is a mistake, which has been told.
 */
#ifndef PAPER_AWARD_H
#define PAPER_AWARD_H

#include "paper_word.h"

int take_award(struct rest *r); /* behind the word: POINTS CRITERION */
int take_pass(struct rest *r);  /* behind the word: POINTS */

#endif
