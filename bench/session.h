/* The session: which fits an image, and the responses kept in it. */

enum { NONE = -1, WAITING = 22 };

struct session {
    u32 directory;
    int file;    /* NONE, or its number */
    u32 pointer; /* 0 while undefined */
    u32 presented[2];
    u32 count;
    u8 waiting[24]; /* 22, and two bytes that are always 0 */
};

/* beyond[n]: the bytes of the waiting array from place n on. */
static u64 beyond[WAITING + 1][3];

static void prepare_session(void)
{
    for (u32 n = 0; n <= WAITING; n++)
        for (u32 i = n; i < 24; i++) beyond[n][i / 8] |= 0xFFul << i % 8 * 8;
}

HOT void wait_for(struct session *s, u32 count, u64 first, u64 second, u64 third)
{
    s->count = count;
    store8(s->waiting, first);
    store8(s->waiting + 8, second);
    store8(s->waiting + 16, third);
}

HOT void drop(struct session *s) { wait_for(s, 0, 0, 0, 0); }

HOT void reset(struct session *s)
{
    *s = (struct session){ .file = NONE };
}

HOT int fits(const struct session *s, const u8 *image, const struct index *x)
{
    if (s->directory >= x->directories || s->count > WAITING) return 0;
    const u64 *rest = beyond[s->count];
    if ((load8(s->waiting) & rest[0]) | (load8(s->waiting + 8) & rest[1]) | (load8(s->waiting + 16) & rest[2])) return 0;
    if (s->file == NONE) return s->pointer == 0;
    if ((u32)s->file >= x->files) return 0;
    const u8 *entry = image + x->entries + ENTRY * (u32)s->file;
    if (entry[2] != s->directory) return 0;
    return s->pointer == 0 || (entry[3] != 0 && s->pointer <= records(number(entry + 10), entry[4]));
}

/* The 22 bytes of a directory, and two zeros, in three words. */
HOT void tell_directory(u64 *words, const u8 *image, const struct index *x, u32 d)
{
    u64 e = load8(image + DIRECTORIES + 2 + 8 * d);
    u32 one = load4(image + 2), two = load4(image + 22);
    u64 features = (e >> 24 & 0xFF) | (one & 1) << 7;
    words[0] = (e >> 32 & 0xFFFF) << 16 | (e & 0xFFFF) << 32 | (d == 0 ? 1ul : 2ul) << 48;
    words[1] = 9ul << 32 | features << 40 | (u64)children_of(image, x, d) << 48 | (u64)elements_of(image, x, d) << 56;
    words[2] = (e >> 48 & 0xFF) | (u64)((one & 0x80) + (one >> 8 & 0xFF)) << 16
        | (u64)((one & 0x40) * 2 + (one >> 16 & 0xFF)) << 24 | (u64)((two & 0x80) + (two >> 8 & 0xFF)) << 32
        | (u64)((two & 0x40) * 2 + (two >> 16 & 0xFF)) << 40;
}

/* The 15 bytes of a file wait. */
HOT void wait_file(struct session *s, const u8 *entry)
{
    u64 first = (u64)load2(entry + 10) << 16 | (u64)load2(entry) << 32 | 4ul << 48 | (u64)entry[5] << 56;
    u64 second = load4(entry + 6) | 2ul << 32 | (u64)load2(entry + 3) << 40;
    wait_for(s, 15, first, second, 0);
}
