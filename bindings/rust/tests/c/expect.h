/* What the C tests expect: where it is not so, the line is printed, and the function returns 1. */
#include <stdio.h>

#define EXPECT(what)                                       \
    do {                                                   \
        if (!(what)) {                                     \
            printf("line %d: %s\n", __LINE__, #what);      \
            return 1;                                      \
        }                                                  \
    } while (0)
