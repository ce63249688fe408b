/* The startup code of a test on a Cortex-M under qemu: the vector table, for the C library with semihosting. */
#include <stdint.h>
#include <stdlib.h>

extern uint32_t stack_end;
void _start(void);

static void fault(void)
{
    _Exit(4);
}

/* The vector table of the processor: the end of the stack, and the handlers of the first exceptions. */
__attribute__((section(".vectors"), used)) static const struct {
    uint32_t *stack;
    void (*handlers[15])(void);
} vectors = {&stack_end, {_start, fault, fault, fault, fault, fault}};

/* The archives of dist/cortex want it; scard.c has its own. */
void scard_trap(void);
void scard_trap(void)
{
    _Exit(5);
}
