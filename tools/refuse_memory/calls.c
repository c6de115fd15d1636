// Does the call whose number is the first word, on the plan from standard input, and ends with what it tells.
#include <stdint.h>
#include <stdlib.h>
#include <unistd.h>

extern uint32_t take_memory(uint32_t call, const uint8_t *bytes, size_t length);

int main(int count, char **words) {
    static uint8_t plan[4096];
    ssize_t got;
    size_t length = 0;
    while ((got = read(0, plan + length, sizeof plan - length)) > 0) length += (size_t)got;
    return count == 2 && got == 0 ? (int)take_memory((uint32_t)atoi(words[1]), plan, length) : 99;
}
