/* The shelf form: whether a list of bytes is an image (paper 01), found in one pass over its entries. Written for a little-endian machine
   that reads words from any place. */

typedef unsigned char u8;
typedef unsigned short u16;
typedef unsigned int u32;
typedef unsigned long u64;

#define HOT static inline __attribute__((always_inline))

enum { CODES = 2, DIRECTORIES = 42, MOST_DIRECTORIES = 32, MOST_FILES = 200, MOST_BYTES = 24576, ENTRY = 14 };

/* What the test of an image works with. An entry is known by its parent's number and the low byte of its identifier: the high byte
   follows from the parent. */
struct rules {
    u64 high[MOST_DIRECTORIES];   /* the high byte of a directory's files' identifiers, or NOWHERE */
    u32 wanted[MOST_DIRECTORIES]; /* the high byte of its directories' identifiers, or 256 */
#ifdef INDEX_KEPT
    u32 nowhere;                  /* so many at the end of `high` are NOWHERE */
    u32 stamp;                    /* a multiple of 256, another for each image */
    u32 file_slot[MOST_DIRECTORIES * 256];
    u32 directory_slot[MOST_DIRECTORIES * 256];
#else
    u64 file_mark[128], directory_mark[128];
#endif
};

/* Where things are. With INDEX_KEPT also what the commands look up, written down by the test and kept between commands: a slot holds
   `stamp` plus the entry's number where this image has the entry; other slots are left over from earlier images. */
struct index {
    u32 directories, files;
    u32 entries, bytes;
#ifdef INDEX_KEPT
    u32 children[MOST_DIRECTORIES]; /* directories below */
    u32 elements[MOST_DIRECTORIES]; /* files below */
    u32 start[MOST_FILES];          /* of a file's bytes */
    struct rules r;
#endif
};

/* No masked entry has this bit. */
#define NOWHERE (1ul << 48)

/* What a file of one structure and record length may be. size * inverse holds the number of records above 32 bits, and below them at
   most `rest` exactly if the size is a whole number of records. */
struct shape {
    u64 inverse;
    long rest, most;
    u64 zeros, more_zeros; /* bits that are 0 or told by the directory; in bytes 0 to 7 and 6 to 13 */
    u64 unused[3];
};

static struct shape shapes[4 * 256];

static void prepare_shape(struct shape *shape, u32 structure, u32 length)
{
    int sound = structure == 0 ? length == 0 : structure != 2 && length != 0;
    shape->inverse = length == 0 ? 1ul << 32 : ((1ul << 32) + length - 1) / length;
    shape->rest = sound ? (long)shape->inverse - 1 : -1;
    shape->most = structure == 0 ? 65535 : 254;
    shape->zeros = (structure == 3 && length == 3 ? 0xBFul : 0xFFul) << 40 | 0xFCE000FFul;
    shape->more_zeros = structure == 3 ? 0xFF000000FA000F00ul : 0xFFFF0000FA000F00ul;
}

static void prepare_shapes(void)
{
    for (u32 i = 0; i < 4 * 256; i++) prepare_shape(&shapes[i], i / 256, i % 256);
}

HOT u64 load8(const u8 *p) { u64 v; __builtin_memcpy(&v, p, 8); return v; }
HOT u32 load4(const u8 *p) { u32 v; __builtin_memcpy(&v, p, 4); return v; }
HOT u32 load2(const u8 *p) { u16 v; __builtin_memcpy(&v, p, 2); return v; }
HOT void store8(u8 *p, u64 v) { __builtin_memcpy(p, &v, 8); }
HOT void store4(u8 *p, u32 v) { __builtin_memcpy(p, &v, 4); }
HOT void store2(u8 *p, u32 v) { u16 w = (u16)v; __builtin_memcpy(p, &w, 2); }
HOT u32 number(const u8 *p) { return (u32)p[0] << 8 | p[1]; }

/* Records of a file with records. */
HOT u32 records(u32 size, u32 length) { return (u32)(size * shapes[256 + length].inverse >> 32); }

/* Flags, attempts, unblock attempts, a zero. */
HOT u32 bad_code(u32 head, u32 unused)
{
    return (head & (unused | 0xFF00FC00u)) | ((head & 0xFF0000) > 0xA0000);
}

/* Takes the place of an entry at 256 * parent + low; negative if it is taken. */
#ifdef INDEX_KEPT
HOT long occupy(u32 *slot, u64 at, u32 stamped)
{
    long free = (long)(u64)(slot[at] ^ stamped) - 256;
    slot[at] = stamped;
    return free;
}
#define TAKE_FILE(at, n) occupy(x->r.file_slot, at, x->r.stamp + (n))
#define TAKE_DIRECTORY(at, n) occupy(x->r.directory_slot, at, x->r.stamp + (n))
#define NOTE(what) what
#else
HOT long occupy(u64 *mark, u64 at)
{
    u64 word = mark[at & 127], bit = 1ul << (at >> 7 & 63);
    mark[at & 127] = word | bit;
    return -(long)((word & bit) != 0);
}
#define TAKE_FILE(at, n) occupy(r->file_mark, at)
#define TAKE_DIRECTORY(at, n) occupy(r->directory_mark, at)
#define NOTE(what)
#endif

/* Rules are gathered, not left at the first: `bad` must stay 0, and `under` must not become negative. */
HOT int bad_directories(const u8 *entry, u32 count, struct index *x, struct rules *r)
{
    u64 bad = (load8(entry) & 0xFF00000080FFFFFFul) ^ 0x3F;
    long under = 0;
    (void)x;
    r->wanted[0] = 0x7F;
    r->high[0] = 0x2F;
    NOTE(x->children[0] = x->elements[0] = 0;)
    for (u32 i = 1; i < count; i++) {
        u64 e = load8(entry += 8);
        u32 parent = e >> 16 & 31, wanted = r->wanted[parent];
        bad |= (e & 0xFF00000080E000FFul) ^ wanted;
        under |= (long)i - 1 - parent;
        r->wanted[i] = wanted == 0x7F ? 0x5F : 256;
        r->high[i] = wanted ^ 0x10;
        NOTE(x->children[i] = x->elements[i] = 0;)
        NOTE(x->children[parent]++;)
        under |= TAKE_DIRECTORY(e >> 8 & 0x1FFF, i);
    }
#ifdef INDEX_KEPT
    for (u32 i = count; i < MOST_DIRECTORIES - r->nowhere; i++) r->high[i] = NOWHERE;
    r->nowhere = MOST_DIRECTORIES - count;
#else
    for (u32 i = count; i < MOST_DIRECTORIES; i++) r->high[i] = NOWHERE;
#endif
    return (bad != 0) | (under < 0);
}

HOT int bad_files(const u8 *entry, u32 count, struct index *x, struct rules *r, u32 *sum)
{
    const u8 *end = entry + ENTRY * count;
    u64 bad = 0, begins = 0;
    long under = 0;
    (void)x;
    NOTE(u32 *start = x->start;)
    NOTE(u32 n = 0;)
    for (; entry != end; entry += ENTRY) {
        u64 e = load8(entry), at = e >> 8 & 0x1FFF;
        const struct shape *shape = &shapes[__builtin_bswap64(e) >> 24 & 0x3FF];
        bad |= (e & shape->zeros) ^ r->high[at >> 8];
        under |= TAKE_FILE(at, n++);
        NOTE(x->elements[at >> 8]++;)
        u64 f = load8(entry + 6), turned = __builtin_bswap64(f), size = turned >> 16 & 0xFFFF;
        u64 product = size * shape->inverse;
        long many = (long)(product >> 32), top = turned >> 8 & 0xFF;
        bad |= f & shape->more_zeros;
        under |= (shape->rest - (long)(product & 0xFFFFFFFF)) | (shape->most - many) | (many - 1 - top);
        NOTE(*start++ = (u32)begins;)
        begins += size;
    }
    *sum = (u32)begins;
    return (bad != 0) | (under < 0);
}

/* Nothing is taken. */
static inline void clear(struct rules *r)
{
#ifdef INDEX_KEPT
    r->stamp += 256;
    if (r->stamp != 0) return;
    for (u32 i = 0; i < MOST_DIRECTORIES * 256; i++) r->file_slot[i] = r->directory_slot[i] = 0;
    r->stamp = 256;
#else
    for (u32 i = 0; i < 128; i++) r->file_mark[i] = r->directory_mark[i] = 0;
    for (u32 i = 0; i < MOST_DIRECTORIES; i++) r->wanted[i] = 256;
#endif
}

/* Whether these bytes are an image; if so the index is filled. It stands in one page of code: under the emulator a loop that crosses into
   another takes half as long again. */
static __attribute__((noinline, aligned(4096))) int is_image(const u8 *image, u32 length, struct index *x)
{
    u32 sum;
    if (length < DIRECTORIES + 2 + 8 + 2 + 2 || load2(image) != 0x0200) return 0;
    if (bad_code(load4(image + 2), 0x3E) | bad_code(load4(image + 22), 0x3F)) return 0;
    u32 directories = number(image + DIRECTORIES), entries = DIRECTORIES + 2 + 8 * directories + 2;
    if (directories - 1 >= MOST_DIRECTORIES || entries + 2 > length) return 0;
    u32 files = number(image + entries - 2), bytes = entries + ENTRY * files + 2;
    if (files > MOST_FILES || bytes > length) return 0;
    x->directories = directories;
    x->entries = entries;
    x->files = files;
    x->bytes = bytes;
#ifdef INDEX_KEPT
    struct rules *r = &x->r;
#else
    struct rules own, *r = &own;
#endif
    clear(r);
    if (bad_directories(image + DIRECTORIES + 2, directories, x, r)) return 0;
    if (bad_files(image + entries, files, x, r, &sum)) return 0;
    return sum <= MOST_BYTES && sum == number(image + bytes - 2) && bytes + sum == length;
}

/* The same where these bytes are known to be an image. */
HOT void find_index(const u8 *image, struct index *x)
{
    x->directories = number(image + DIRECTORIES);
    x->entries = DIRECTORIES + 2 + 8 * x->directories + 2;
    x->files = number(image + x->entries - 2);
    x->bytes = x->entries + ENTRY * x->files + 2;
}
