/* The marks around what is measured: a system call with a number that Linux does not use, seen by the plugin count.c. */
#ifndef MARK_H
#define MARK_H

enum {
    MARK_NUMBER = 30000,
    MARK_END = 0,
    MARK_REGIONS = 1024
};

#ifdef __x86_64__
static inline void mark_begin(unsigned long region)
{
    long number = MARK_NUMBER;
    __asm__ volatile("syscall" : "+a"(number) : "D"(region) : "rcx", "r11", "memory");
}

/* Written out whole, so that each end costs the same three instructions, which the empty region tells. */
static inline void mark_end(void)
{
    __asm__ volatile("movl %0, %%eax\n\txorl %%edi, %%edi\n\tsyscall"
                     :
                     : "i"(MARK_NUMBER)
                     : "rax", "rdi", "rcx", "r11", "memory", "cc");
}

#define MEASURE(region, statement) \
    do { \
        mark_begin(region); \
        statement; \
        mark_end(); \
    } while (0)
#endif

#endif
