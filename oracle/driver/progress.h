// How far a run is, on standard error, every ten seconds.

long time(long *);

// With a comma after every thousand, before the end of a string.
static char *grouped(char *end, u64 number) {
    *--end = 0;
    for (int digits = 0; digits == 0 || number > 0; digits++, number /= 10) {
        if (digits > 0 && digits % 3 == 0) *--end = ',';
        *--end = '0' + number % 10;
    }
    return end;
}

static void tell(const char *part, u64 done, u64 all, const char *what) {
    static long told;
    char of[2][32];
    long now = time(0);
    if (told == 0) told = now;
    if (now - told <= 10) return; // they are whole seconds
    told = now;
    dprintf(2, "%s: %s of %s %s\n", part, grouped(of[0] + 32, done), grouped(of[1] + 32, all), what);
}
