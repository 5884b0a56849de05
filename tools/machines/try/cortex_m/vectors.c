/* The first two words that a Cortex-M reads: its stack, and where it begins. */
extern void _start(void);
__attribute__((section(".vectors"), used)) void *const vectors[] = {(void *)0x20400000, (void *)_start};
