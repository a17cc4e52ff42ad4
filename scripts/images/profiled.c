// A program whose time lies in an inlined call, in the C library and in the kernel: something real to profile. The compiler
// makes leaf.constprop.0 of leaf. With FAR its code stands behind 5 MB of other code.
#include <stdio.h>
#include <stdlib.h>
#define APART __attribute__((noinline))
#ifdef FAR
asm(".text\n.globl filler\n.type filler, @function\nfiller: .skip 5000000, 0x90\nret\n.size filler, . - filler\n");
#endif
static unsigned numbers[60000];
static inline __attribute__((always_inline)) unsigned square(unsigned number) {
    unsigned sum = 0;
    for (unsigned index = 0; index < 50; index++)
        sum += (number * number) ^ (sum >> 3) ^ index;
    return sum;
}
static APART unsigned leaf(unsigned count, unsigned shift) {
    unsigned sum = 0;
    for (unsigned index = 0; index < count; index++)
        sum += square(index ^ sum) >> shift;
    return sum;
}
APART unsigned work(unsigned count) {
    unsigned sum = 0;
    for (unsigned index = 0; index < count; index++)
        sum += leaf(1000 + (sum & 1), 2) ^ index;
    return sum;
}
static int compare(const void *one, const void *other) {
    unsigned first = *(const unsigned *)one, second = *(const unsigned *)other;
    return first < second ? -1 : first > second;
}
APART unsigned sorted(unsigned at) {
    for (unsigned index = 0; index < 60000; index++)
        numbers[index] = index * 2654435761u;
    qsort(numbers, 60000, sizeof *numbers, compare);
    return numbers[at];
}
int main(int count, char **words) {
    printf("%u\n", work(count > 1 ? atoi(words[1]) : 4000));
    for (unsigned at = 0; at < 8; at++)
        printf("%u\n", sorted(at));
    return 0;
}
