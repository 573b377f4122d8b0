// What the programs here take of the C library.

int printf(const char *, ...);
int dprintf(int, const char *, ...);
_Noreturn void exit(int);
u64 strtoul(const char *, char **, int);
void *memcpy(void *, const void *, size_t);
void *memset(void *, int, size_t);
int memcmp(const void *, const void *, size_t);
void *mmap(void *, size_t, int, int, int, long);
int mprotect(void *, size_t, int);
void (*signal(int, void (*)(int)))(int);
unsigned alarm(unsigned);
