// Each core adds up its share of a table, and adds that to one total, under a lock. The total is 80.

static const int table[16] = {3, 1, 4, 1, 5, 9, 2, 6, 5, 3, 5, 8, 9, 7, 9, 3};

// Lines of their own, for lines of up to 64 bytes.
static volatile int lock __attribute__((aligned(64)));
static volatile int total __attribute__((aligned(64)));

// A core begins at address 0 of its text, with its number in a0 and the number of cores in a1. It needs a stack: each has
// 1,024 bytes below 16384.
__asm__(".section .text.start\n"
        "   li sp, 16384\n"
        "   slli t0, a0, 10\n"
        "   sub sp, sp, t0\n"
        "   call work\n"
        "   ecall\n" // exit with what work returned
        ".text\n");

int work(int core, int cores) {
    int sum = 0;
    for (int i = core; i < 16; i += cores)
        sum += table[i];
    while (__atomic_exchange_n(&lock, 1, __ATOMIC_ACQUIRE))
        while (lock)
            ;
    total += sum;
    __atomic_store_n(&lock, 0, __ATOMIC_RELEASE);
    return sum;
}
