/* fence_test PLACE: reads that byte of a block of ten bytes; fence_test PLACE freed: after the block was given back.
 * host/run asks with it whether the fences of host/fence.c stand. */
#include <stdio.h>
#include <stdlib.h>

static volatile char *volatile block;

int main(int count, char **arguments)
{
    block = malloc(10);
    if (!block || count < 2)
        return 2;
    if (count > 2)
        free((void *)block);
    printf("byte %s is %d\n", arguments[1], block[atoi(arguments[1])]);
    return 0;
}
