/* Hands standard input to the port, for `emulated.sh`, which counts its instructions. */
#include <stdint.h>
#include <stdio.h>
#include <stdlib.h>

uint64_t saltighedda_bench(const uint8_t *file, size_t length);

int main(void)
{
    size_t room = 1 << 24;
    uint8_t *file = malloc(room);
    if (!file)
        return 2;
    size_t length = fread(file, 1, room, stdin);
    printf("%llu\n", (unsigned long long)saltighedda_bench(file, length));
    return 0;
}
