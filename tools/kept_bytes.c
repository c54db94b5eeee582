/* Writes, for each case on standard input, the 80 bytes that the proved library stored of what an integrator keeps, as they lie in this program's memory.
   A case is the 56 bytes of a log's parameters, the number of bytes of a run's events as a u64, and these. tools/kept_bytes.py builds it, feeds it and reads what it
   writes. It is for Linux on x86-64 and needs no C library, so that it is linked wherever the toolchain is. */
typedef unsigned char u8;
typedef unsigned long size;

void kept_values(const u8 *parameters, size n, const u8 *events, size m, double *out, size numbers);

/* what the library may call */
void *memcpy(void *to, const void *from, size n) {
    for (size i = 0; i < n; i++) ((u8 *)to)[i] = ((const u8 *)from)[i];
    return to;
}

void *memset(void *to, int x, size n) {
    for (size i = 0; i < n; i++) ((u8 *)to)[i] = (u8)x;
    return to;
}

static long call(long number, long a, long b, long c) {
    long r;
    __asm__ volatile("syscall" : "=a"(r) : "a"(number), "D"(a), "S"(b), "d"(c) : "rcx", "r11", "memory");
    return r;
}

/* Whether all n bytes were there. */
static int read_all(void *to, size n) {
    size done = 0;
    while (done < n) {
        long r = call(0, 0, (long)((u8 *)to + done), (long)(n - done));
        if (r <= 0) return 0;
        done += (size)r;
    }
    return 1;
}

static void end(int status) {
    for (;;) call(60, status, 0, 0);
}

static u8 events[65536];

__attribute__((force_align_arg_pointer)) void _start(void) {
    u8 parameters[56];
    size n;
    while (read_all(parameters, sizeof parameters)) {
        double out[10];
        memset(out, 0xee, sizeof out);
        if (!read_all(&n, sizeof n) || n > sizeof events || !read_all(events, n)) end(2);
        kept_values(parameters, sizeof parameters, events, n, out, 10);
        if (call(1, 1, (long)out, sizeof out) != sizeof out) end(1);
    }
    end(0);
}
