/*
 * What the proved code takes from C, beside the C library. The toolchain declares each function in its crates libc
 * (src/heap.rt) and os (src/c.rt), with the contract that is given here in words. The proofs assume the contracts: nothing
 * proves that these lines keep them.
 *
 * ./confscript compiles this file with the program's text. The text of the library has its first three functions already:
 * tools/compile compiled them with the toolchain's clang. So that no other file decides on that text, the file declares
 * itself what it takes from the C library.
 */
typedef __SIZE_TYPE__ size_t;
typedef __PTRDIFF_TYPE__ ptrdiff_t;
void *malloc(size_t size);
void *realloc(void *block, size_t size);
void free(void *block);

/* Whether there is memory, and the pointer to it, which is never null: struct Tried of the crate libc. */
struct tried {
    _Bool ok;
    void *p;
};

static struct tried tried(void *p) {
    static char nothing;
    return (struct tried){p != 0, p != 0 ? p : &nothing};
}

/*
 * Contract: if `a` divides 16 and `n` is less than 2^63, an ok result has a new block of `n` bytes that is aligned to
 * `a` and may be freed by rattle_dealloc. Another result has a pointer that is not null, to memory of which the caller
 * may use nothing.
 *
 * malloc aligns each block to 16 bytes. It may return null for 0 bytes, so it is never asked for them.
 */
struct tried rattle_alloc(size_t n, size_t a) {
    return tried(malloc(n != 0 ? n : a));
}

/*
 * Contract: if `p` is such a block, aligned to `a`, and `kept` is at most its length and at most `n`, an ok result has
 * a block as of rattle_alloc whose first `kept` bytes are those of the old one, and the old one may no longer be used.
 * After another result the block at `p` is unchanged.
 *
 * realloc keeps as many bytes as both blocks have. It may free the block if it is asked for 0 bytes, so it never is.
 */
struct tried rattle_realloc(void *p, size_t kept, size_t n, size_t a) {
    (void)kept;
    return tried(realloc(p, n != 0 ? n : a));
}

/* Contract: a block of either is freed. */
void rattle_dealloc(void *p) {
    free(p);
}

/* The rest is for the program alone. */
#ifdef PROGRAM

#include <errno.h>

#ifndef __GLIBC__
#error "the program needs glibc: it calls functions that other C libraries lack, and keep_arguments rests on it"
#endif

static size_t argument_count;
static char **arguments;

/* glibc calls this before main, with the arguments of main. */
__attribute__((constructor)) static void keep_arguments(int argc, char **argv) {
    argument_count = (size_t)argc;
    arguments = argv;
}

/*
 * Contract: nothing is written but some of the `room` bytes at `buffer`. Argument `i` is copied to the start of the
 * buffer, and its length is returned; -1 if there is no such argument, and -2 if it does not fit, when the buffer is
 * full.
 */
ptrdiff_t rattle_arg(size_t i, char *buffer, size_t room) {
    if (i >= argument_count) return -1;
    const char *argument = arguments[i];
    size_t length = 0;
    for (; argument[length] != '\0'; length++) {
        if (length == room) return -2;
        buffer[length] = argument[length];
    }
    return (ptrdiff_t)length;
}

/*
 * The toolchain's main calls this to ignore the signal SIGPIPE. It does nothing here, in place of the function of the C
 * library, so the signal stays as the program was started with it. By default it ends the program, without a message,
 * when it writes and the reader of its output has ended, as in `confscript lines | head -1`.
 */
void *__sysv_signal(int number, void *handler);
void *__sysv_signal(int number, void *handler) {
    (void)number;
    return handler;
}

#ifdef __x86_64__
#include <cpuid.h>

/*
 * Contract: none; the program's main asks for leaf 0x1 (number 0) and leaf 0x80000001 (number 2), and ends if the processor
 * is not of level v2. That is a function of glibc since 2.33, which older ones lack: what the processor has of a leaf, and
 * what a program may use of it. The two are the same for all that level v2 needs.
 */
struct features {
    unsigned has[4], usable[4];
};
const struct features *__x86_get_cpuid_feature_leaf(unsigned number);
const struct features *__x86_get_cpuid_feature_leaf(unsigned number) {
    static struct features leaves[3];
    struct features *of = &leaves[number == 0 ? 0 : number == 2 ? 1 : 2];
    unsigned *has = of->has, leaf = number == 0 ? 1 : 0x80000001;
    if (of != &leaves[2] && __get_cpuid(leaf, &has[0], &has[1], &has[2], &has[3]) != 0)
        for (int i = 0; i < 4; i++) of->usable[i] = has[i];
    return of;
}
#endif

/* Contract: none. The errno of the thread. */
int rattle_errno(void) {
    return errno;
}

/* Contract: none. Sets the errno of the thread. */
void rattle_set_errno(int error) {
    errno = error;
}

#endif
