/* A plain C player of card images: what the playing program is measured against. Standard input holds a two-byte count and the image,
   the number of commands, and each command after its count. One line a command goes out: number, host answer, response.
   With `--image` a last line `image HEX` follows. With `laps`: see laps.h. Compiled with INDEX_KEPT it keeps an index between commands.
   Needs read, write, realloc and _exit. */

#include "shelf.h"
#include "lookup.h"
#include "session.h"
#include "commands.h"
#include "search.h"
#include "play.h"

enum { ROOM = 258, MOST = 65535 };

extern long read(int, void *, unsigned long);
extern long write(int, const void *, unsigned long);
extern void *realloc(void *, unsigned long);
extern void _exit(int) __attribute__((noreturn));

static u8 image[MOST + 1], command[MOST + 1], room[ROOM];
static u32 image_length;
static char out[2 * MOST + 32];
static u32 filled;

static void put(char byte) { out[filled++] = byte; }

static void put_text(const char *text)
{
    while (*text) put(*text++);
}

static void put_number(u32 value)
{
    char digits[10];
    u32 n = 0;
    do digits[n++] = (char)('0' + value % 10);
    while (value /= 10);
    while (n > 0) put(digits[--n]);
}

/* Hexadecimal; `-` for none. */
static void put_bytes(const u8 *bytes, u32 count)
{
    if (count == 0) put('-');
    for (u32 i = 0; i < count; i++) {
        put("0123456789ABCDEF"[bytes[i] >> 4]);
        put("0123456789ABCDEF"[bytes[i] & 15]);
    }
}

static void end_line(void)
{
    put('\n');
    for (u32 done = 0; done < filled;) {
        long n = write(1, out + done, filled - done);
        if (n <= 0) _exit(1);
        done += (u32)n;
    }
    filled = 0;
}

/* 0 where the input ends early. */
static int take(u8 *to, u32 count)
{
    while (count > 0) {
        long n = read(0, to, count);
        if (n <= 0) return 0;
        to += n;
        count -= (u32)n;
    }
    return 1;
}

static int take_number(u32 *value)
{
    u8 two[2];
    if (!take(two, 2)) return 0;
    *value = number(two);
    return 1;
}

static int take_image(void)
{
    u32 count;
    if (!take_number(&count) || !take(image, count)) return 0;
    image_length = count;
    return 1;
}

static struct index of_image;

#include "laps.h"

static int play_all(void)
{
    static struct session session;
    u32 many, count;
    reset(&session);
    if (!take_image() || !take_number(&many)) return 0;
    for (u32 i = 1; i <= many; i++) {
        if (!take_number(&count) || !take(command, count)) return 0;
#ifdef INDEX_KEPT
        struct outcome o = play(image, image_length, &session, command, count, room, ROOM, &of_image);
#else
        struct played p = play(image, image_length, session, command, count, room, ROOM);
        struct outcome o = p.o;
        session = p.s;
#endif
        put_number(i);
        put(' ');
        put_number(o.host);
        put(' ');
        put_bytes(room, o.count);
        end_line();
    }
    return 1;
}

static int is(const char *word, const char *other)
{
    while (*word && *word == *other) word++, other++;
    return *word == *other;
}

int main(int count, char **words)
{
    int tell = count == 2 && is(words[1], "--image"), laps = count == 2 && is(words[1], "laps");
    if (count > 2 || (count == 2 && !tell && !laps)) return 2;
    prepare_shapes();
    prepare_session();
    if (!(laps ? play_laps() : play_all())) {
        put_text("short input");
        end_line();
    }
    if (tell) {
        put_text("image ");
        put_bytes(image, image_length);
        end_line();
    }
    return 0;
}
