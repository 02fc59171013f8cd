/* What the processor says of itself, and what of it the system lets be used, as GNU's C library has it: of a leaf the four
   registers, twice. The program asks as it starts whether the instructions that it was compiled for are there. */

#include <cpuid.h>
#include <stdint.h>

static inline const uint32_t *feature_leaf(unsigned leaf)
{
    static const unsigned LEAVES[] = {1, 7, 0x80000001};
    static uint32_t said[3][8];
    if (leaf > 2) leaf = 2;
    uint32_t *registers = said[leaf];
    if (__get_cpuid_count(LEAVES[leaf], 0, &registers[0], &registers[1], &registers[2], &registers[3]))
        for (int i = 0; i < 4; i++) registers[4 + i] = registers[i];
    return registers;
}
