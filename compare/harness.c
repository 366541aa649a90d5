/* Calls the functions of the archive on requests from standard input and writes back all that they left behind.
 *
 * A request is eighteen numbers of four bytes, lowest byte first: the function, the side, four plain arguments, and for each of the four
 * buffers how many guard elements stand before it, how many elements it has, how many guard elements stand behind it. The four images (guard,
 * buffer, guard) follow. An answer is the number returned and the four images as they are after the call, whether the function was to
 * write to them or not.
 *
 * Each buffer lives in a field of its own between two walls, stretches of memory that may not be touched. Side 0 puts the image against the
 * wall before it, side 1 against the wall behind it: where there is no guard on that side, the first step out of the buffer ends the program.
 *
 * No header and no allocator is used, so that a compiler and a C library without headers are enough. The gate holds the declarations below
 * against include/slots.h by compiling both together. */

typedef unsigned char u8;
typedef unsigned int u32;
typedef unsigned long u64;

long read(int file, void *to, u64 many);
long write(int file, const void *from, u64 many);
void *mmap(void *at, u64 many, int may, int how, int file, long from);
int mprotect(void *at, u64 many, int may);
void _exit(int status);

u32 slots_look(const u8 *index, u64 size, u64 *out, u64 outs);
u32 slots_ask(const u8 *index, u64 size, u32 way, const u32 *names, u64 many, u32 *slots, u64 room, u64 *out, u64 outs);
u32 slots_test(const u8 *index, u64 size, u32 name, u32 slot, u64 *out, u64 outs);
u32 slots_count(const u8 *index, u64 size, u32 name, u64 *out, u64 outs);
u32 slots_lend(const u8 *index, u64 size, u32 name, u64 *out, u64 outs);
u32 slots_write(u32 u, u32 block, u32 cut, const u32 *slots, u64 many, u8 *room, u64 size, u64 *out, u64 outs);
u32 slots_close(u8 *room, u64 size, u32 u, u32 block, u32 total, const u32 *starts, u64 many, u64 *out, u64 outs);
u32 slots_bound(u32 u, u32 block, u32 cut, u32 n, u64 *out, u64 outs);
u32 slots_next(const u8 *index, u64 size, u32 name, u32 slot, u64 *out, u64 outs);

enum { NOTHING = 0, READ_WRITE = 3, PRIVATE_FRESH = 0x22 };
enum { STOPPED = 3, NO_MEMORY = 4, BAD_REQUEST = 5 };
enum { FIELDS = 4, PLAIN = 6, HEADER = PLAIN + 3 * FIELDS };

/* A multiple of the page length of every machine this may run on. */
#define WALL 65536ul
#define LARGEST (WALL * 272)

/* One buffer's field: where it is, its element's bytes, and what the present request put into it. */
struct field {
    u8 *start;
    u64 size, width;
    u8 *image, *buffer;
    u64 bytes, length;
};

static struct field fields[FIELDS] = {
    { .size = LARGEST, .width = 1 }, /* the index, or the room for a record */
    { .size = LARGEST, .width = 4 }, /* names, slots to write, or starts */
    { .size = LARGEST, .width = 4 }, /* the slice that takes the slots */
    { .size = WALL, .width = 8 },    /* the answer's numbers */
};

#define CHEST (1ul << 20)
static u8 in[CHEST], out[CHEST];
static u64 in_at, in_end, out_end;

static void copy(u8 *to, const u8 *from, u64 many) {
    __builtin_memcpy(to, from, many);
}

static void put_all(const u8 *from, u64 many) {
    while (many > 0) {
        long done = write(1, from, many);
        if (done <= 0) _exit(STOPPED);
        from += done;
        many -= (u64)done;
    }
}

static void flush(void) {
    put_all(out, out_end);
    out_end = 0;
}

static void put(const u8 *from, u64 many) {
    if (many > CHEST - out_end) flush();
    if (many > CHEST) {
        put_all(from, many);
        return;
    }
    copy(out + out_end, from, many);
    out_end += many;
}

/* Fills the input chest again. Answers go out before the program may have to wait, so that one request alone is answered too. */
static void refill(void) {
    flush();
    long got = read(0, in, CHEST);
    if (got < 0) _exit(STOPPED);
    if (got == 0) _exit(0);
    in_at = 0;
    in_end = (u64)got;
}

static void take(u8 *to, u64 many) {
    while (many > 0) {
        if (in_at == in_end) refill();
        u64 part = in_end - in_at < many ? in_end - in_at : many;
        copy(to, in + in_at, part);
        in_at += part;
        to += part;
        many -= part;
    }
}

static void build(struct field *f) {
    u8 *at = mmap(0, f->size + 2 * WALL, NOTHING, PRIVATE_FRESH, -1, 0);
    if (at == (u8 *)-1) _exit(NO_MEMORY);
    f->start = at + WALL;
    if (mprotect(f->start, f->size, READ_WRITE) != 0) _exit(NO_MEMORY);
}

static void place(struct field *f, u32 side, const u32 *sizes) {
    u64 all = (u64)sizes[0] + sizes[1] + sizes[2];
    f->bytes = all * f->width;
    if (f->bytes > f->size) _exit(BAD_REQUEST);
    f->image = side == 0 ? f->start : f->start + f->size - f->bytes;
    f->buffer = f->image + sizes[0] * f->width;
    /* An empty slice may come with a null pointer, so one that stands right at the first wall does. */
    if (sizes[0] == 0 && sizes[1] == 0 && side == 0) f->buffer = 0;
    f->length = sizes[1];
    take(f->image, f->bytes);
}

/* Steps out of a buffer on purpose: one element before it on side 0, one behind it on side 1. Nothing is answered where the walls stand. */
static u32 step_out(u32 side, u32 which) {
    const struct field *f = &fields[which % FIELDS];
    volatile u8 *at = side == 0 ? f->buffer - 1 : f->buffer + f->length * f->width;
    return *at;
}

static u32 call(const u32 *h) {
    u8 *bytes = fields[0].buffer;
    u32 *given = (u32 *)fields[1].buffer, *slots = (u32 *)fields[2].buffer;
    u64 *answer = (u64 *)fields[3].buffer;
    u64 size = fields[0].length, many = fields[1].length, room = fields[2].length, answers = fields[3].length;
    u32 x = h[2], y = h[3], z = h[4], w = h[5];
    switch (h[0]) {
    case 0: return slots_look(bytes, size, answer, answers);
    case 1: return slots_ask(bytes, size, x, given, many, slots, room, answer, answers);
    case 2: return slots_test(bytes, size, x, y, answer, answers);
    case 3: return slots_count(bytes, size, x, answer, answers);
    case 4: return slots_lend(bytes, size, x, answer, answers);
    case 5: return slots_write(x, y, z, given, many, bytes, size, answer, answers);
    case 6: return slots_close(bytes, size, x, y, z, given, many, answer, answers);
    case 7: return slots_bound(x, y, z, w, answer, answers);
    case 8: return slots_next(bytes, size, x, y, answer, answers);
    case 9: return step_out(h[1], x);
    }
    _exit(BAD_REQUEST);
    return 0;
}

int main(void) {
    u32 h[HEADER];
    for (int i = 0; i < FIELDS; i++) build(&fields[i]);
    for (;;) {
        take((u8 *)h, sizeof h);
        for (int i = 0; i < FIELDS; i++) place(&fields[i], h[1], h + PLAIN + 3 * i);
        u32 number = call(h);
        put((const u8 *)&number, sizeof number);
        for (int i = 0; i < FIELDS; i++) put(fields[i].image, fields[i].bytes);
    }
}
