/* Refuses requests for memory: preloaded into a dynamically linked test program.

   In the process, a request whose size has one of these words in its upper 16 bits is a message and no request:
     0x5ef0 | N   from now on count requests, and refuse the Nth (0: none). Answered by no block.
     0x5ef1       stop. Answered by a block exactly if a request was refused since the last 0x5ef0.
     0x5ef2       a part of a sweep ends. Answered by no block.
     0x5ef3 | N   from now on add up the bytes requested, against the limit N. Answered by no block.
     0x5ef4       stop. Answered by a block exactly if more than N bytes were requested since the last 0x5ef3.
     0x5ef5 | N   as 0x5ef0, and refuse each request after the Nth too.
   From outside, REFUSE=N refuses the Nth request of the whole process, and REFUSE_REPORT=FILE appends a line with the
   counts when the process ends by exit, among them the blocks that it still holds.

   Without this library the C library refuses such sizes by itself, so a program takes every message as "nothing was
   refused". It is written without headers, so that any C compiler makes it. */
typedef unsigned long size_t;
extern void *__libc_malloc(size_t);
extern void *__libc_realloc(void *, size_t);
extern void __libc_free(void *);
extern char *getenv(const char *);
extern int open(const char *, int, ...);
extern long write(int, const void *, size_t);
extern int close(int);
extern int *__errno_location(void);

enum { NO_MEMORY = 12, WRITE_CREATE_APPEND = 01 | 0100 | 02000 };
enum { REFUSE_NTH = 0x5ef0, WAS_REFUSED = 0x5ef1, PART_ENDS = 0x5ef2, ADD_BYTES = 0x5ef3, WERE_MORE = 0x5ef4 };
enum { REFUSE_FROM = 0x5ef5 };

static long until;         /* by message: how many requests until the one to be refused, 0 for none */
static int all_after;      /* whether each request after that one is refused too */
static long process_until; /* the same by REFUSE */
static long refused;       /* since the last message that set `until` */
static long requests, refusals, messages;
static long part_began, empty; /* the refusals before this part, and the parts that had none */
static int adding;             /* whether bytes are added up */
static size_t bytes, limit;    /* since the last message that set `limit` */
static long added;             /* all bytes added up so far */
static long held;              /* the blocks handed out and not yet freed */

static int refuses(size_t size) {
    int no = 0;
    requests++;
    if (adding) {
        bytes += size;
        added += (long)size;
    }
    if (until > 0 && --until == 0) {
        no = 1;
        until = all_after;
    }
    if (process_until > 0 && --process_until == 0) no = 1;
    if (no) {
        refused++;
        refusals++;
        *__errno_location() = NO_MEMORY;
    }
    return no;
}

/* Whether the size is a message; its answer is stored at `answer`. */
static int is_message(size_t size, void **answer) {
    size_t word = size >> 48;
    *answer = 0;
    if (word == REFUSE_NTH || word == REFUSE_FROM) {
        until = (long)(size & 0xffffffffffffUL);
        all_after = word == REFUSE_FROM;
        refused = 0;
    } else if (word == WAS_REFUSED) {
        if (refused > 0) *answer = __libc_malloc(1);
        until = refused = 0;
    } else if (word == PART_ENDS) {
        if (refusals == part_began) empty++;
        part_began = refusals;
    } else if (word == ADD_BYTES) {
        adding = 1;
        bytes = 0;
        limit = size & 0xffffffffffffUL;
    } else if (word == WERE_MORE) {
        if (bytes > limit) *answer = __libc_malloc(1);
        adding = 0;
        bytes = 0;
    } else {
        return 0;
    }
    messages++;
    held += *answer != 0;
    if (!*answer) *__errno_location() = NO_MEMORY;
    return 1;
}

void *malloc(size_t size) {
    void *answer;
    if (is_message(size, &answer)) return answer;
    if (refuses(size)) return 0;
    answer = __libc_malloc(size);
    held += answer != 0;
    return answer;
}

void *realloc(void *block, size_t size) {
    void *answer;
    if (is_message(size, &answer)) return answer;
    if (refuses(size)) return 0; /* which leaves the old block */
    answer = __libc_realloc(block, size);
    held += !block && answer;
    return answer;
}

void free(void *block) {
    held -= block != 0;
    __libc_free(block);
}

__attribute__((constructor)) static void begin(void) {
    const char *text = getenv("REFUSE");
    long n = 0;
    for (; text && *text >= '0' && *text <= '9'; text++) n = n * 10 + (*text - '0');
    process_until = n;
    requests = held = 0;
}

static char *put(char *to, const char *word, long n) {
    char digits[24];
    int count = 0;
    while (*word) *to++ = *word++;
    do {
        digits[count++] = (char)('0' + n % 10);
        n /= 10;
    } while (n);
    while (count) *to++ = digits[--count];
    return to;
}

__attribute__((destructor)) static void end(void) {
    const char *file = getenv("REFUSE_REPORT");
    char line[160], *to = line;
    if (!file) return;
    to = put(to, "requests=", requests);
    to = put(to, " refused=", refusals);
    to = put(to, " messages=", messages);
    to = put(to, " empty=", empty);
    to = put(to, " added=", added);
    to = put(to, " held=", held < 0 ? -held : held);
    *to++ = '\n';
    int report = open(file, WRITE_CREATE_APPEND, 0666);
    if (report < 0) return;
    if (write(report, line, (size_t)(to - line)) < 0) {
    }
    close(report);
}
