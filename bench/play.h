/* One command: the tests of its header, and the command itself. */

/* What a header may hold. P2 is allowed where its bit in `second` is set and no bit of `outside` is; P1 where no bit of `first` is.
   An unknown instruction allows no P2. P3 from `least` on, `span` more; else 67 and `right`. `sends` is FF where P3 data bytes follow. */
struct form {
    u32 second;
    u8 first, outside, least, span, right, sends, on_file;
};

#define EVERY 0xFFFFFFFFu
static const struct form forms[256] = {
    [0xA4] = { 1, 0xFF, 0xE0, 2, 0, 2, 0xFF, 0 },
    [0xF2] = { 1, 0xFF, 0xE0, 1, 21, 0x16, 0, 0 },
    [0xB0] = { EVERY, 0, 0, 0, 255, 0, 0, 1 },
    [0xD6] = { EVERY, 0, 0, 1, 254, 0, 0xFF, 1 },
    [0xB2] = { 0x1C, 0, 0xE0, 0, 255, 0, 0, 1 },
    [0xDC] = { 0x1C, 0, 0xE0, 1, 254, 0, 0xFF, 1 },
    [0xA2] = { 0xF000F, 0xFF, 0xE0, 1, 15, 0, 0xFF, 1 },
    [0x32] = { 1, 0xFF, 0xE0, 3, 0, 3, 0xFF, 1 },
    [0x20] = { 6, 0xFF, 0xE0, 8, 0, 8, 0xFF, 0 },
    [0x24] = { 6, 0xFF, 0xE0, 16, 0, 16, 0xFF, 0 },
    [0x26] = { 2, 0xFF, 0xE0, 8, 0, 8, 0xFF, 0 },
    [0x28] = { 2, 0xFF, 0xE0, 8, 0, 8, 0xFF, 0 },
    [0x2C] = { 5, 0xFF, 0xE0, 16, 0, 16, 0xFF, 0 },
    [0x04] = { 1, 0xFF, 0xE0, 0, 0, 0, 0, 1 },
    [0x44] = { 1, 0xFF, 0xE0, 0, 0, 0, 0, 1 },
    [0xFA] = { 1, 0xFF, 0xE0, 0, 0, 0, 0, 0 },
    [0xC0] = { 1, 0xFF, 0xE0, 0, 255, 0, 0, 0 },
};

HOT u32 act_on_file(struct card *c, const u8 *command)
{
    const u8 *data = command + 5;
    u32 p1 = command[2], p2 = command[3], p3 = command[4];
    if (c->s->file == NONE) return answer(c, 0, 0x9400);
    switch (command[1]) {
    case 0xB0: return play_binary(c, p1 << 8 | p2, p3 == 0 ? 256 : p3, 0);
    case 0xD6: return play_binary(c, p1 << 8 | p2, p3, data);
    case 0xB2: return play_record(c, p1, p2, p3, 0);
    case 0xDC: return play_record(c, p1, p2, p3, data);
    case 0xA2: return play_seek(c, p2, p3, data);
    case 0x32: return play_increase(c, data);
    case 0x04: return play_mark(c, 0);
    default: return play_mark(c, 1);
    }
}

HOT u32 act(struct card *c, const u8 *command)
{
    const u8 *data = command + 5;
    u32 p2 = command[3];
    switch (command[1]) {
    case 0xA4: return play_select(c, data);
    case 0xF2: return play_status(c, command[4]);
    case 0xFA: return done(c);
    case 0x2C: return play_unblock(c, p2 >> 1, data);
    default: return play_code(c, command[1], p2 - 1, data);
    }
}

HOT int refused(const struct form *form, u32 p1, u32 p2, u32 p3)
{
    return ((p1 & form->first) | (p2 & form->outside) | !(form->second >> (p2 & 31) & 1)) != 0 || p3 - form->least > form->span;
}

static __attribute__((noinline)) u32 refuse(struct card *c, const struct form *form, u32 p1, u32 p2)
{
    drop(c->s);
    if (form->second == 0) return answer(c, 0, 0x6D00);
    if ((p1 & form->first) | (p2 & form->outside) | !(form->second >> (p2 & 31) & 1)) return answer(c, 0, 0x6B00);
    return answer(c, 0, 0x6700u + form->right);
}

/* The number of response bytes; 0 is host answer 4, which leaves all. */
HOT u32 play_card(struct card *c, const u8 *command, u32 length)
{
    if (length < 5) return 0;
    if (command[0] != 0xA0) return answer(c, 0, 0x6E00);
    const struct form *form = &forms[command[1]];
    u32 p1 = command[2], p2 = command[3], p3 = command[4];
    if (refused(form, p1, p2, p3)) return refuse(c, form, p1, p2);
    if (length - 5 != (p3 & form->sends)) return 0;
    if (command[1] == 0xC0) return play_get_response(c, p3);
    drop(c->s);
    return form->on_file ? act_on_file(c, command) : act(c, command);
}

struct outcome {
    u32 host, count;
};

#ifdef INDEX_KEPT
/* One command with every test. The index is filled anew, in memory that is kept. */
HOT struct outcome play(u8 *image, u32 length, struct session *s, const u8 *command, u32 count, u8 *room, u32 size, struct index *x)
{
    struct card c = { image, x, s, room };
    if (!is_image(image, length, x)) return (struct outcome){ 1, 0 };
    if (!fits(s, image, x)) return (struct outcome){ 2, 0 };
    if (size < 258) return (struct outcome){ 3, 0 };
    u32 written = play_card(&c, command, count);
    return (struct outcome){ written == 0 ? 4 : 0, written };
}
#else
/* As the Rattle player's `play` and `play_on`: everything is in the arguments, the session goes in and comes back by value, and nothing is
   kept between commands. */
struct played {
    struct outcome o;
    struct session s;
};

HOT struct played play_ready(u8 *image, struct session s, const u8 *command, u32 count, u8 *room, u32 size, struct index *x)
{
    struct card c = { image, x, &s, room };
    if (size < 258) return (struct played){ { 3, 0 }, s };
    u32 written = play_card(&c, command, count);
    return (struct played){ { written == 0 ? 4 : 0, written }, s };
}

static __attribute__((noinline)) struct played play(u8 *image, u32 length, struct session s, const u8 *command, u32 count, u8 *room, u32 size)
{
    struct index x;
    if (!is_image(image, length, &x)) return (struct played){ { 1, 0 }, s };
    if (!fits(&s, image, &x)) return (struct played){ { 2, 0 }, s };
    return play_ready(image, s, command, count, room, size, &x);
}

static __attribute__((noinline)) struct played play_on(u8 *image, struct session s, const u8 *command, u32 count, u8 *room, u32 size)
{
    struct index x;
    find_index(image, &x);
    return play_ready(image, s, command, count, room, size, &x);
}
#endif
