/* Prints the sentence of each answer, and of a number that is no answer. C and C++ alike. */
#include <stdio.h>

#include "reefnettle.h"

int main(void)
{
    unsigned number;
    for (number = REEFNETTLE_ANSWER_ACCEPTED; number <= REEFNETTLE_ANSWER_UNREADABLE + 1; number++)
        printf("%u\t%s\n", number, reefnettle_answer_text(number));
    return 0;
}
