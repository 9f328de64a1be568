// A library that is loaded before the C library, and refuses one call of the program: the Nth growth of memory, the Nth
// read, the Nth write or the Nth thread. The variable REFUSE has a letter for the kind (m, r, w or t) and N, from 1; at
// the refusal the byte `x` goes to the open file with the number in REFUSE_TOLD. Other calls go on as they are. Three kinds
// more give and take little at a time: with d each read gives one byte, and each read after the one that is refused is told
// by a `y`; with s each write to standard output takes three bytes at
// most; with z as well, and from the Nth on it takes nothing. It stands
// on no header, as the toolchain that compiles it has none.

typedef unsigned long size_t;
typedef long ssize_t;

enum { READ = 0, WRITE = 1 };
enum { OUTPUT = 1 };
enum { NO_MEMORY = 12, IO_FAILED = 5, AGAIN = 11 };

extern char **environ;
extern int *__errno_location(void);
extern void *__libc_malloc(size_t size);
extern void *__libc_realloc(void *old, size_t size);
extern void *dlsym(void *handle, const char *name);

static char kind;
static long left;
static int told = -1;

// A system call with three arguments; what it answers is below 0 if it failed.
static long call(long number, long first, long second, long third) {
    long result;
    __asm__ volatile("syscall" : "=a"(result) : "a"(number), "D"(first), "S"(second), "d"(third) : "rcx", "r11", "memory");
    return result;
}

// What the environment has for a name, or 0.
static const char *value_of(const char *name) {
    for (char **entry = environ; entry && *entry; entry++) {
        const char *text = *entry, *at = name;
        while (*at && *text == *at) {
            text++;
            at++;
        }
        if (!*at && *text == '=') return text + 1;
    }
    return 0;
}

static long number_in(const char *text) {
    long number = 0;
    while (*text >= '0' && *text <= '9') number = number * 10 + (*text++ - '0');
    return number;
}

__attribute__((constructor)) static void begin(void) {
    const char *refuse = value_of("REFUSE"), *to = value_of("REFUSE_TOLD");
    if (!refuse || !to) return;
    told = (int)number_in(to);
    left = number_in(refuse + 1);
    kind = *refuse;
}

// How many calls of a kind are left, from this one on, before the one to be refused: 0 if it is this one, below 0 after it. Of
// other kinds some always are.
static long calls_left(char of) {
    return kind == of ? __atomic_sub_fetch(&left, 1, __ATOMIC_SEQ_CST) : 1;
}

static void tell(const char *byte) {
    call(WRITE, told, (long)byte, 1);
}

// Whether this call of a kind is the one to be refused.
static int is_refused(char of) {
    if (calls_left(of) != 0) return 0;
    tell("x");
    return 1;
}

static long failed(int error) {
    *__errno_location() = error;
    return -1;
}

// What a system call answers, as the C library tells it.
static ssize_t answer(long result) {
    return result < 0 ? failed((int)-result) : result;
}

void *malloc(size_t size) {
    if (!is_refused('m')) return __libc_malloc(size);
    failed(NO_MEMORY);
    return 0;
}

void *realloc(void *old, size_t size) {
    if (!is_refused('m')) return __libc_realloc(old, size);
    failed(NO_MEMORY);
    return 0;
}

static size_t least(size_t count, size_t most) {
    return count < most ? count : most;
}

ssize_t read(int file, void *bytes, size_t count) {
    if (is_refused('r')) return failed(IO_FAILED);
    if (kind == 'd') {
        long are_left = calls_left('d');
        if (are_left <= 0) tell(are_left == 0 ? "x" : "y");
        if (are_left == 0) return failed(IO_FAILED);
        count = least(count, 1);
    }
    return answer(call(READ, file, (long)bytes, (long)count));
}

ssize_t write(int file, const void *bytes, size_t count) {
    if (is_refused('w')) return failed(IO_FAILED);
    if (file == OUTPUT && (kind == 's' || kind == 'z')) {
        long are_left = calls_left(kind);
        if (are_left == 0) tell("x");
        if (kind == 'z' && are_left <= 0) return 0;
        if (kind == 's' && are_left == 0) return failed(IO_FAILED);
        count = least(count, 3);
    }
    return answer(call(WRITE, file, (long)bytes, (long)count));
}

ssize_t __write(int file, const void *bytes, size_t count) {
    return write(file, bytes, count);
}

int pthread_create(void *thread, const void *attributes, void *(*start)(void *), void *argument) {
    if (is_refused('t')) return AGAIN;
    int (*create)(void *, const void *, void *(*)(void *), void *) =
        (int (*)(void *, const void *, void *(*)(void *), void *))dlsym((void *)-1, "pthread_create");
    return create(thread, attributes, start, argument);
}
