// What footprints.c says to the plugin watch.c: the system call, and its first argument. The arena is an
// address and a size.
enum { WATCH = 0xdeb10c, WATCH_ARENA = 1, WATCH_ON, WATCH_OFF };
