/* The refusals in words: the one table that everything the command says of them is taken from. */
#ifndef CLI_REFUSALS_H
#define CLI_REFUSALS_H

#include "cartheron.h"

/* What a refusal says, without a full stop. Any number has its words, also one that is no refusal. */
const char *refusal_words(enum cartheron_refusal number);

#endif
