/* Every answer has a text of its own, and any other number has one too. Good C and good C++ alike. */
#include "ewplander.h"

#include <stdio.h>
#include <string.h>

int main(void) {
    const char *other = ewplander_answer_text(UINT32_MAX);
    if (other == NULL || *other == 0) return 1;
    for (uint32_t answer = 0; answer < 300; answer++) {
        const char *text = ewplander_answer_text(answer);
        if (text == NULL || *text == 0 || (strcmp(text, other) == 0) != (answer > EWPLANDER_USED)) {
            printf("the text of %u: %s\n", (unsigned)answer, text == NULL ? "none" : text);
            return 1;
        }
        for (uint32_t lower = 0; lower < answer && answer <= EWPLANDER_USED; lower++) {
            if (strcmp(text, ewplander_answer_text(lower)) == 0) {
                printf("%u and %u have one text: %s\n", (unsigned)lower, (unsigned)answer, text);
                return 1;
            }
        }
    }
    return strlen(EWPLANDER_VERSION) == 0;
}
