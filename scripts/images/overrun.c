// A program that reads behind its memory: something real for a sanitizer to report.
#include <stdlib.h>
static inline __attribute__((always_inline)) int get(int *numbers, int at) {
    return numbers[at];
}
__attribute__((noinline)) int deep(int *numbers, int count) {
    if (count == 0)
        return get(numbers, 10);
    return deep(numbers, count - 1) + 1;
}
int main(int count, char **words) {
    int *numbers = malloc(40);
    return deep(numbers, count + 2) + (words == 0);
}
