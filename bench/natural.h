/* The objects of the import, as one would write them with pointers. */
#ifndef NATURAL_H
#define NATURAL_H

#include "import.h"

typedef struct wheel {
    struct wheel *before;
    uint32_t position, pressure;
} wheel;

typedef struct row {
    struct row *before;
    wheel *last;
    uint32_t number;
} row;

typedef struct node {
    struct node *before;
    wheel *kept;
} node;

#endif
