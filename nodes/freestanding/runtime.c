/*
 * The functions that the archives and a compiler call, for a program that is linked with no C library and no library of its compiler. On ARM
 * they have the names and the arguments of its run-time ABI. Compile it with -fno-builtin: the loops below are these functions, and may not
 * become calls of them.
 */
#include <stdint.h>

/* Four bytes of anything. */
typedef uint32_t __attribute__((may_alias)) four;

static void copy(uint8_t *to, const uint8_t *from, uintptr_t count)
{
    if ((((uintptr_t)to | (uintptr_t)from) & 3) == 0) {
        for (; count >= 16; count -= 16, to += 16, from += 16) {
            uint32_t a = ((const four *)from)[0], b = ((const four *)from)[1];
            uint32_t c = ((const four *)from)[2], d = ((const four *)from)[3];
            ((four *)to)[0] = a;
            ((four *)to)[1] = b;
            ((four *)to)[2] = c;
            ((four *)to)[3] = d;
        }
        for (; count >= 4; count -= 4, to += 4, from += 4) {
            *(four *)to = *(const four *)from;
        }
    }
    for (; count > 0; count--) {
        *to++ = *from++;
    }
}

static void fill(uint8_t *to, uint8_t byte, uintptr_t count)
{
    uint32_t word = byte * 0x01010101u;
    for (; count > 0 && ((uintptr_t)to & 3) != 0; count--) {
        *to++ = byte;
    }
    for (; count >= 16; count -= 16, to += 16) {
        ((four *)to)[0] = word;
        ((four *)to)[1] = word;
        ((four *)to)[2] = word;
        ((four *)to)[3] = word;
    }
    for (; count > 0; count--) {
        *to++ = byte;
    }
}

void *memcpy(void *to, const void *from, uintptr_t count)
{
    copy(to, from, count);
    return to;
}

void *memset(void *to, int byte, uintptr_t count)
{
    fill(to, (uint8_t)byte, count);
    return to;
}

#if __SIZEOF_POINTER__ == 4
/* The quotient, bit by bit; the remainder goes to where it is asked for. */
__attribute__((used)) static uint64_t divide(uint64_t dividend, uint64_t divisor, uint64_t *remainder)
{
    uint64_t quotient = 0, rest = 0;
    int bit;
    for (bit = 0; bit < 64; bit++) {
        rest = rest << 1 | dividend >> 63;
        dividend <<= 1;
        quotient <<= 1;
        if (rest >= divisor) {
            rest -= divisor;
            quotient |= 1;
        }
    }
    *remainder = rest;
    return quotient;
}

#endif

#ifdef __arm__
void __aeabi_memcpy(void *to, const void *from, uintptr_t count) { copy(to, from, count); }
void __aeabi_memcpy4(void *to, const void *from, uintptr_t count) { copy(to, from, count); }
void __aeabi_memcpy8(void *to, const void *from, uintptr_t count) { copy(to, from, count); }
void __aeabi_memset(void *to, uintptr_t count, int byte) { fill(to, (uint8_t)byte, count); }
void __aeabi_memset4(void *to, uintptr_t count, int byte) { fill(to, (uint8_t)byte, count); }
void __aeabi_memset8(void *to, uintptr_t count, int byte) { fill(to, (uint8_t)byte, count); }
void __aeabi_memclr(void *to, uintptr_t count) { fill(to, 0, count); }
void __aeabi_memclr4(void *to, uintptr_t count) { fill(to, 0, count); }
void __aeabi_memclr8(void *to, uintptr_t count) { fill(to, 0, count); }

/* By parts of 16 bits, whose product has 32. The compiler would know a product of 64 bits by its parts, and call this function again. */
uint64_t __aeabi_lmul(uint64_t a, uint64_t b)
{
    uint32_t low = (uint32_t)a, other = (uint32_t)b;
    uint32_t a0 = low & 0xFFFF, a1 = low >> 16, b0 = other & 0xFFFF, b1 = other >> 16;
    uint32_t lowest = a0 * b0, middle, rest, high;
    __asm__("" : "+r"(lowest));
    middle = a1 * b0 + (lowest >> 16);
    rest = (middle & 0xFFFF) + a0 * b1;
    high = a1 * b1 + (middle >> 16) + (rest >> 16) + low * (uint32_t)(b >> 32) + (uint32_t)(a >> 32) * other;
    return (uint64_t)high << 32 | low * other;
}

/* The quotient in r0, the remainder in r1. */
uint64_t __aeabi_uidivmod(uint32_t dividend, uint32_t divisor)
{
    uint32_t quotient = 0, rest = 0;
    int bit;
    for (bit = 31; bit >= 0; bit--) {
        rest = rest << 1 | (dividend >> bit & 1);
        if (rest >= divisor) {
            rest -= divisor;
            quotient |= 1u << bit;
        }
    }
    return (uint64_t)rest << 32 | quotient;
}

uint32_t __aeabi_uidiv(uint32_t dividend, uint32_t divisor)
{
    return (uint32_t)__aeabi_uidivmod(dividend, divisor);
}

/* The quotient in r0 and r1, the remainder in r2 and r3. */
__attribute__((naked)) void __aeabi_uldivmod(void)
{
    __asm__("push {r4, lr}\nsub sp, #16\nadd r4, sp, #8\nstr r4, [sp]\nbl divide\n"
            "ldr r2, [sp, #8]\nldr r3, [sp, #12]\nadd sp, #16\npop {r4, pc}");
}
#endif

#if defined(__riscv) && __riscv_xlen == 32
uint64_t __udivdi3(uint64_t dividend, uint64_t divisor)
{
    uint64_t remainder;
    return divide(dividend, divisor, &remainder);
}

uint64_t __umoddi3(uint64_t dividend, uint64_t divisor)
{
    uint64_t remainder;
    divide(dividend, divisor, &remainder);
    return remainder;
}
#endif
