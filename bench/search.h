/* SEEK, INCREASE, marks on a file, and the codes. */

/* Whether a record starts with the pattern; `wide` is 8, 4, 2 or 1, and at most the pattern's count, which is at most twice that. */
HOT int same(const u8 *record, const u8 *pattern, u32 count, u32 wide)
{
    u32 last = count - wide;
    if (wide == 8) return load8(record) == load8(pattern) && load8(record + last) == load8(pattern + last);
    if (wide == 4) return load4(record) == load4(pattern) && load4(record + last) == load4(pattern + last);
    if (wide == 2) return load2(record) == load2(pattern) && load2(record + last) == load2(pattern + last);
    return record[0] == pattern[0];
}

/* The first of `many` records, `step` bytes apart, that starts with the pattern: its place in the order, or `many`. */
HOT u32 find(const u8 *record, long step, u32 many, const u8 *pattern, u32 count, u32 wide)
{
    u32 i = 0;
    while (i < many && !same(record, pattern, count, wide)) {
        record += step;
        i++;
    }
    return i;
}

HOT u32 find_any(const u8 *record, long step, u32 many, const u8 *pattern, u32 count)
{
    if (count >= 8) return find(record, step, many, pattern, count, 8);
    if (count >= 4) return find(record, step, many, pattern, count, 4);
    if (count >= 2) return find(record, step, many, pattern, count, 2);
    return find(record, step, many, pattern, count, 1);
}

HOT u32 play_seek(struct card *c, u32 p2, u32 count, const u8 *pattern)
{
    const u8 *entry = entry_of(c);
    u32 length = entry[4], p = p2 & 2 ? c->s->pointer : 0;
    if (entry[3] != 1) return answer(c, 0, 0x9408);
    if (!(entry[9] & 1)) return answer(c, 0, 0x9810);
    if (!allowed(c, entry[6] >> 4)) return answer(c, 0, 0x9804);
    if (count > length) return answer(c, 0, 0x6700 + length);
    u32 many = records(number(entry + 10), length), back = p2 & 1;
    u32 first = back ? (p == 0 ? many : p - 1) : p + 1; /* the record to begin with */
    u32 range = back ? first : many - p;
    if (range == 0) return answer(c, 0, 0x9404);
    long step = back ? -(long)length : (long)length;
    u32 found = find_any(bytes_of(c) + (first - 1) * length, step, range, pattern, count);
    if (found == range) return answer(c, 0, 0x9404);
    c->s->pointer = back ? first - found : first + found;
    if (p2 < 0x10) return done(c);
    wait_for(c->s, 1, c->s->pointer, 0, 0);
    return answer(c, 0, 0x9F01);
}

HOT u32 three(const u8 *p) { return (u32)p[0] << 16 | (u32)p[1] << 8 | p[2]; }

HOT u32 play_increase(struct card *c, const u8 *data)
{
    u8 *entry = entry_of(c);
    if (entry[5] != 0x40) return answer(c, 0, 0x9408);
    if (!(entry[9] & 1)) return answer(c, 0, 0x9810);
    if (!allowed(c, entry[7] >> 4)) return answer(c, 0, 0x9804);
    u32 value = three(bytes_of(c) + entry[12] * 3u) + three(data);
    if (value > 0xFFFFFF) return answer(c, 0, 0x9850);
    u32 swapped = __builtin_bswap32(value << 8);
    u8 sum[3] = { (u8)(value >> 16), (u8)(value >> 8), (u8)value };
    u64 added = (u64)data[0] << 24 | (u64)data[1] << 32 | (u64)data[2] << 40;
    write_oldest(c, entry, sum, 3, records(number(entry + 10), 3));
    wait_for(c->s, 6, swapped | added, 0, 0);
    return answer(c, 0, 0x9F06);
}

/* INVALIDATE, and REHABILITATE where `valid` is 1. */
HOT u32 play_mark(struct card *c, u32 valid)
{
    u8 *entry = entry_of(c);
    if ((entry[9] & 1) == valid) return answer(c, 0, 0x9810);
    if (!allowed(c, valid ? entry[8] >> 4 : entry[8] & 15)) return answer(c, 0, 0x9804);
    entry[9] ^= 1;
    return done(c);
}

HOT u32 wrong(struct card *c, u8 *counter)
{
    *counter = (u8)(*counter - 1);
    return answer(c, 0, *counter ? 0x9804 : 0x9840);
}

/* VERIFY, CHANGE, DISABLE and ENABLE. */
HOT u32 play_code(struct card *c, u32 instruction, u32 which, const u8 *data)
{
    u8 *code = c->image + CODES + 20 * which;
    if (!(code[0] & 0x80)) return answer(c, 0, 0x9802);
    if (code[1] == 0) return answer(c, 0, 0x9840);
    if ((code[0] & 1) != (instruction == 0x28)) return answer(c, 0, 0x9808);
    if (load8(code + 4) != load8(data)) return wrong(c, code + 1);
    code[1] = 3;
    c->s->presented[which] = 1;
    if (instruction == 0x24) store8(code + 4, load8(data + 8));
    else if (instruction != 0x20) code[0] ^= 1;
    return done(c);
}

HOT u32 play_unblock(struct card *c, u32 which, const u8 *data)
{
    u8 *code = c->image + CODES + 20 * which;
    if ((code[0] & 0xC0) != 0xC0) return answer(c, 0, 0x9802);
    if (code[2] == 0) return answer(c, 0, 0x9840);
    if (load8(code + 12) != load8(data)) return wrong(c, code + 2);
    code[0] &= 0xFE;
    code[1] = 3;
    code[2] = 10;
    store8(code + 4, load8(data + 8));
    c->s->presented[which] = 1;
    return done(c);
}
