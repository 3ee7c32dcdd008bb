/* What the commands look up in an image that was tested. With INDEX_KEPT the test wrote it down; else it is found in the image. */

#ifdef INDEX_KEPT

HOT u32 start_of(const u8 *image, const struct index *x, u32 file) { (void)image; return x->start[file]; }
HOT u32 children_of(const u8 *image, const struct index *x, u32 d) { (void)image; return x->children[d]; }
HOT u32 elements_of(const u8 *image, const struct index *x, u32 d) { (void)image; return x->elements[d]; }

/* The directory below `parent`, or the file in `d`, with this low byte; 256 or more if there is none. */
HOT u32 directory_named(const u8 *image, const struct index *x, u32 parent, u32 low)
{
    (void)image;
    return x->r.directory_slot[parent * 256 + low] ^ x->r.stamp;
}

HOT u32 file_named(const u8 *image, const struct index *x, u32 d, u32 low)
{
    (void)image;
    return x->r.file_slot[d * 256 + low] ^ x->r.stamp;
}

#else

HOT u32 start_of(const u8 *image, const struct index *x, u32 file)
{
    const u8 *size = image + x->entries + 10;
    u32 sum = 0;
    for (; file > 0; file--, size += ENTRY) sum += number(size);
    return sum;
}

HOT u32 children_of(const u8 *image, const struct index *x, u32 d)
{
    const u8 *parent = image + DIRECTORIES + 2 + 2;
    u32 found = 0;
    for (u32 i = 1; i < x->directories; i++) found += parent[8 * i] == d;
    return found;
}

HOT u32 elements_of(const u8 *image, const struct index *x, u32 d)
{
    const u8 *home = image + x->entries + 2, *end = home + ENTRY * x->files;
    u32 found = 0;
    for (; home != end; home += ENTRY) found += *home == d;
    return found;
}

/* The low byte and the parent stand one after the other, in both kinds of entries. */
HOT u32 directory_named(const u8 *image, const struct index *x, u32 parent, u32 low)
{
    const u8 *pair = image + DIRECTORIES + 2 + 1;
    u32 wanted = parent << 8 | low;
    for (u32 i = 1; i < x->directories; i++)
        if (load2(pair + 8 * i) == wanted) return i;
    return 256;
}

HOT u32 file_named(const u8 *image, const struct index *x, u32 d, u32 low)
{
    const u8 *pair = image + x->entries + 1;
    u32 wanted = d << 8 | low;
    for (u32 i = 0; i < x->files; i++, pair += ENTRY)
        if (load2(pair) == wanted) return i;
    return 256;
}

#endif
