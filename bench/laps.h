/* Laps: a list of commands played over and over, for timing. Standard input holds one byte (0: every test at every command; else the
   image and the session are tested at the start of each lap, and its commands rely on that), the number of laps in two bytes, and the
   playing input. Image and session go on from lap to lap. One line: two sums, over the answers and over the image at the end. */

/* All commands, each after its two-byte count. */
struct list {
    u8 *bytes;
    u32 many;
};

static int take_list(struct list *list)
{
    unsigned long used = 0, held = 0;
    u32 count;
    list->bytes = 0;
    if (!take_number(&list->many)) return 0;
    for (u32 i = 0; i < list->many; i++) {
        if (!take_number(&count)) return 0;
        if (used + 2 + count > held) {
            held = 2 * held + 2 + count;
            list->bytes = realloc(list->bytes, held);
            if (!list->bytes) _exit(1);
        }
        store2(list->bytes + used, count);
        if (!take(list->bytes + used + 2, count)) return 0;
        used += 2 + count;
    }
    return 1;
}

HOT u32 digest(struct outcome o, const u8 *response)
{
    u32 sum = o.host * 7 + o.count * 3;
    for (u32 i = 0; i < o.count; i++) sum += response[i];
    return sum;
}

/* One command, with every test or trusting the test of the lap. */
HOT u32 step(int tested, struct session *s, const u8 *command, u32 count)
{
#ifdef INDEX_KEPT
    struct card c = { image, &of_image, s, room };
    if (!tested) return digest(play(image, image_length, s, command, count, room, ROOM, &of_image), room);
    u32 written = play_card(&c, command, count);
    return digest((struct outcome){ written == 0 ? 4 : 0, written }, room);
#else
    struct played p = tested ? play_on(image, *s, command, count, room, ROOM) : play(image, image_length, *s, command, count, room, ROOM);
    *s = p.s;
    return digest(p.o, room);
#endif
}

static u32 lap(int once, const struct list *list, struct session *s)
{
    const u8 *at = list->bytes;
    u32 sum = 0, refused = !once ? 0 : !is_image(image, image_length, &of_image) ? 1 : !fits(s, image, &of_image) ? 2 : 0;
    if (refused) return list->many * refused * 7;
    for (u32 i = 0; i < list->many; i++) {
        u32 count = load2(at);
        sum += step(once, s, at + 2, count);
        at += 2 + count;
    }
    return sum;
}

static int play_laps(void)
{
    static struct session session;
    struct list list;
    u8 mode;
    u32 laps, answers = 0, left = 0;
    reset(&session);
    if (!take(&mode, 1) || !take_number(&laps) || !take_image() || !take_list(&list)) return 0;
    for (u32 i = 0; i < laps; i++) answers += lap(mode != 0, &list, &session);
    for (u32 i = 0; i < image_length; i++) left += (i + 1) * image[i];
    put_number(answers);
    put(' ');
    put_number(left);
    end_line();
    return 1;
}
