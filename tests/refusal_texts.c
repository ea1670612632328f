/* Prints each refusal's number with its words, so that boundary.sh can hold them to the table in docs/REFERENCE.md. */
#include "moqresam.h"

#include <stdio.h>
#include <string.h>

int main(void)
{
    const char *unknown = moqresam_refusal_text(UINT32_MAX);
    uint32_t number;

    for (number = 1; number < 1000; number++)
        if (strcmp(moqresam_refusal_text(number), unknown) != 0)
            printf("%u %s\n", (unsigned)number, moqresam_refusal_text(number));
    return 0;
}
