/* The smallest C program for Paradyn. */
#include "paradyn.h"

int main(long hart, long harts) {
    printf("hart %ld of %ld says hello\n", hart, harts);
    return 0;
}
