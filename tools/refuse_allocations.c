/* Replaces the heap functions of the C library, and refuses the allocations that a program names.

   A program names them by requests for more bytes than a machine has, which would fail anyway: after
   ONE + n bytes the n-th allocation from then on fails, and after EACH bytes all of them do. END bytes
   end that, and succeed if an allocation was refused. A program that makes no such requests has the
   number of its allocation in REFUSE_ALLOCATION, and prints "refused" on standard error if that one is
   reached. Each request for memory is an allocation, also one that makes a block shorter. */
typedef __SIZE_TYPE__ size;

extern void *__libc_malloc(size);
extern void *__libc_calloc(size, size);
extern void *__libc_realloc(void *, size);
extern char *getenv(const char *);
extern long atol(const char *);
extern long write(int, const void *, size);

static const size ONE = (size)1 << 60;
static const size EACH = (size)1 << 59;
static const size END = (size)1 << 58;
static const size MOST = (size)1 << 20;

static size until_refusal; /* allocations up to the one to refuse, with it; 0 where none is */
static int refuses_each;
static int has_refused;
static int says_so;

static void begin(size allocation, int each) {
    until_refusal = allocation;
    refuses_each = each;
    has_refused = 0;
}

__attribute__((constructor)) static void begin_as_told(void) {
    const char *allocation = getenv("REFUSE_ALLOCATION");
    if (allocation) {
        says_so = 1;
        begin((size)atol(allocation), 0);
    }
}

/* Whether an allocation is refused. */
static int refuses(void) {
    int is_due = until_refusal != 0 && --until_refusal == 0;
    if (!is_due && !refuses_each)
        return 0;
    has_refused = 1;
    return says_so ? write(2, "refused\n", 8) != 0 : 1;
}

void *malloc(size bytes) {
    if (bytes > ONE && bytes <= ONE + MOST) {
        begin(bytes - ONE, 0);
        return __libc_malloc(1);
    }
    if (bytes == EACH) {
        begin(0, 1);
        return __libc_malloc(1);
    }
    if (bytes == END) {
        int was_refused = has_refused;
        begin(0, 0);
        return was_refused ? __libc_malloc(1) : 0;
    }
    return refuses() ? 0 : __libc_malloc(bytes);
}

void *calloc(size count, size bytes) {
    return refuses() ? 0 : __libc_calloc(count, bytes);
}

void *realloc(void *block, size bytes) {
    return refuses() ? 0 : __libc_realloc(block, bytes);
}
