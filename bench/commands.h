/* The commands, after the tests of their header. Each gives the number of response bytes. */

struct card {
    u8 *image;
    const struct index *x;
    struct session *s;
    u8 *room;
};

HOT u32 answer(struct card *c, u32 count, u32 word)
{
    store2(c->room + count, __builtin_bswap16((u16)word));
    return count + 2;
}

HOT u32 done(struct card *c) { return answer(c, 0, 0x9000); }

HOT void copy(u8 *to, const u8 *from, u32 count)
{
    if (count >= 8) {
        for (u32 i = 0; i < count - 8; i += 8) store8(to + i, load8(from + i));
        store8(to + count - 8, load8(from + count - 8));
    } else if (count >= 4) {
        u32 last = load4(from + count - 4);
        store4(to, load4(from));
        store4(to + count - 4, last);
    } else {
        for (u32 i = 0; i < count; i++) to[i] = from[i];
    }
}

HOT u8 *entry_of(struct card *c) { return c->image + c->x->entries + ENTRY * (u32)c->s->file; }
HOT u8 *bytes_of(struct card *c) { return c->image + c->x->bytes + start_of(c->image, c->x, (u32)c->s->file); }

HOT int allowed(const struct card *c, u32 level)
{
    if (level == 0) return 1;
    if (level == 1) return c->image[CODES + 1] && ((c->image[CODES] & 1) | c->s->presented[0]);
    return level == 2 && c->image[CODES + 21] && c->s->presented[1];
}

/* The directory that SELECT reaches by this identifier, or NONE. */
HOT int reached(const struct card *c, u32 high, u32 low)
{
    u32 d = c->s->directory, at;
    const u8 *own = c->image + DIRECTORIES + 2 + 8 * d;
    if (high == 0x3F) return low == 0 ? 0 : NONE;
    if (high == 0x7F) at = 0;
    else if (high == 0x5F) at = own[0] == 0x5F ? own[2] : d;
    else return NONE;
    if (at == 0 && high == 0x5F) return NONE;
    u32 found = directory_named(c->image, c->x, at, low);
    if (found >= 256) return NONE;
    return own[0] == 0x5F && high == 0x7F && found != own[2] ? NONE : (int)found;
}

HOT u32 play_select(struct card *c, const u8 *data)
{
    struct session *s = c->s;
    u32 d = s->directory, low = data[1];
    u32 own = c->image[DIRECTORIES + 2 + 8 * d];
    if (data[0] == (own == 0x3F ? 0x2F : own ^ 0x10)) {
        u32 found = file_named(c->image, c->x, d, low);
        if (found >= 256) return answer(c, 0, 0x9404);
        s->file = (int)found;
        const u8 *entry = entry_of(c);
        s->pointer = entry[3] >> 1;
        wait_file(s, entry);
        return answer(c, 0, 0x9F0F);
    }
    int found = reached(c, data[0], low);
    if (found == NONE) return answer(c, 0, 0x9404);
    u64 words[3];
    tell_directory(words, c->image, c->x, (u32)found);
    s->directory = (u32)found;
    s->file = NONE;
    s->pointer = 0;
    wait_for(s, WAITING, words[0], words[1], words[2]);
    return answer(c, 0, 0x9F16);
}

HOT u32 play_status(struct card *c, u32 wanted)
{
    u64 words[3];
    tell_directory(words, c->image, c->x, c->s->directory);
    copy(c->room, (const u8 *)words, wanted);
    return answer(c, wanted, 0x9000);
}

HOT u32 play_get_response(struct card *c, u32 wanted)
{
    u32 count = c->s->count;
    if (count == 0) return answer(c, 0, 0x6F00);
    if (wanted - 1 >= count) return answer(c, 0, 0x6700 + count);
    copy(c->room, c->s->waiting, wanted);
    drop(c->s);
    return answer(c, wanted, 0x9000);
}

/* READ BINARY, and UPDATE BINARY where `data` is given. */
HOT u32 play_binary(struct card *c, u32 offset, u32 length, const u8 *data)
{
    const u8 *entry = entry_of(c);
    if (entry[3] != 0) return answer(c, 0, 0x9408);
    if (!(entry[9] & 5)) return answer(c, 0, 0x9810);
    if (!allowed(c, data ? entry[6] & 15 : entry[6] >> 4)) return answer(c, 0, 0x9804);
    if (offset + length > number(entry + 10)) return answer(c, 0, 0x9402);
    u8 *place = bytes_of(c) + offset;
    if (data) {
        copy(place, data, length);
        return done(c);
    }
    copy(c->room, place, length);
    return answer(c, length, 0x9000);
}

/* The record that a mode reaches, or 0. */
HOT u32 target(const struct session *s, u32 mode, u32 p1, u32 many, int cyclic)
{
    u32 p = s->pointer;
    if (mode == 4) {
        u32 r = p1 == 0 ? p : p1;
        return r <= many ? r : 0;
    }
    if (mode == 2) return p < many ? p + 1 : cyclic ? 1 : 0;
    if (p > 1) return p - 1;
    return p == 0 || cyclic ? many : 0;
}

HOT void write_oldest(struct card *c, u8 *entry, const u8 *data, u32 length, u32 many)
{
    u32 top = (entry[12] == 0 ? many : entry[12]) - 1;
    copy(bytes_of(c) + top * length, data, length);
    entry[12] = (u8)top;
    c->s->pointer = 1;
}

/* READ RECORD, and UPDATE RECORD where `data` is given. */
HOT u32 play_record(struct card *c, u32 p1, u32 mode, u32 p3, const u8 *data)
{
    u8 *entry = entry_of(c);
    u32 cyclic = entry[3] >> 1, length = entry[4];
    if (entry[3] == 0 || (data && cyclic && mode != 3)) return answer(c, 0, 0x9408);
    if (!(entry[9] & 5)) return answer(c, 0, 0x9810);
    if (!allowed(c, data ? entry[6] & 15 : entry[6] >> 4)) return answer(c, 0, 0x9804);
    if (p3 != length) return answer(c, 0, 0x6700 + length);
    u32 many = records(number(entry + 10), length);
    if (data && cyclic) {
        write_oldest(c, entry, data, length, many);
        return done(c);
    }
    u32 r = target(c->s, mode, p1, many, (int)cyclic);
    if (r == 0) return answer(c, 0, 0x9402);
    if (mode != 4) c->s->pointer = r;
    u32 place = entry[12] + r - 1;
    if (place >= many) place -= many;
    u8 *record = bytes_of(c) + place * length;
    if (data) {
        copy(record, data, length);
        return done(c);
    }
    copy(c->room, record, length);
    return answer(c, length, 0x9000);
}
