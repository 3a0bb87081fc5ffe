/* The reference on the mode's published vector of 1,000,000 blocks, with both finishes. */
#include "reference.h"

#include <stdio.h>

int main(void) {
    reference_start();
    reference_million();
    printf("the reference meets the published vectors, all 1,000,000 blocks of the second, with both finishes\n");
    return 0;
}
