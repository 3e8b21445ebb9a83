#include "words.h"

#include "mdf3.h"

static const char *of_ident(uint64_t place)
{
    switch (place) {
    case 24:
        return "its byte order is not little endian";
    case 26:
        return "its float format is not IEEE 754";
    default:
        return "its version is not 3.00 to 3.99";
    }
}

/* Why a block does not open. The header block has no link; a link field may stand at its place too, where blocks overlap. */
static const char *of_block(uint32_t number, uint64_t place)
{
    static const char *const behind_link[] = {
        [MDF3_BLOCK_HEAD] = "the link at this place leads past the end of the file or to its last three bytes",
        [MDF3_BLOCK_IDENTIFIER] = "the link at this place leads to another identifier than that of the block wanted there",
        [MDF3_BLOCK_SIZE] = "the link at this place leads to a block that is too small for its kind",
        [MDF3_BLOCK_END] = "the link at this place leads to a block that ends beyond the end of the file",
    };
    static const char *const at_header[] = {
        [MDF3_BLOCK_HEAD] =
            "the file ends before or within the first 4 bytes of its header block, or the link at this place leads past the "
            "end of the file or to its last three bytes",
        [MDF3_BLOCK_IDENTIFIER] =
            "the header block has another identifier, or the link at this place leads to another than that of the block "
            "wanted there",
        [MDF3_BLOCK_SIZE] =
            "the header block, or the block that the link at this place leads to, is too small for its kind",
        [MDF3_BLOCK_END] =
            "the header block, or the block that the link at this place leads to, ends beyond the end of the file",
    };
    return place == 64 ? at_header[number] : behind_link[number];
}

const char *in_words(uint32_t number, uint64_t place)
{
    static const char *const words[17] = {
        "accepted",
        "longer than 2,147,483,647 bytes",
        "no MDF 3 file: shorter than 64 bytes, or another identifier",
        "not finalized by its logger",
        "",
        "",
        "a trigger, channel dependency, text range conversion or, from version 3.30 on, sample reduction at this place: "
        "not supported",
        "the link at this place leads to one data group, channel group or channel too many",
        "wrong record IDs: the number of ID bytes, a second group without IDs, or an ID at this place",
        "a channel with a type, bits or data type that cannot be, at this place",
        "records of no bytes: the record size at this place is 0",
        "no record that belongs to its data group at this place, or no link to the records",
        "the canonical copy would be longer than 2,147,483,647 bytes",
        "no room for the canonical copy",
        "no such channel group, channel or record",
        "the sample cannot be read: its data type or bits, at this place",
        "the sample has no physical value",
    };
    if (number == MDF3_IDENTIFICATION)
        return of_ident(place);
    if (number == MDF3_BLOCK_HEAD || (number >= MDF3_BLOCK_IDENTIFIER && number <= MDF3_BLOCK_END))
        return of_block(number, place);
    return number < 17 ? words[number] : "unknown";
}

/* One byte of a text. */
static void print_byte(FILE *to, uint8_t byte)
{
    if (byte >= 0xA0 && byte != 0xAD)
        fprintf(to, "%c%c", 0xC0 | byte >> 6, 0x80 | (byte & 0x3F));
    else
        putc(byte >= 0x20 && byte < 0x7F ? byte : '?', to);
}

void print_text(FILE *to, const uint8_t *text, size_t length)
{
    for (size_t i = 0; i < length && text[i] != 0; i++)
        print_byte(to, text[i]);
}

void print_quoted(FILE *to, const uint8_t *text, size_t length)
{
    putc('"', to);
    for (size_t i = 0; i < length && text[i] != 0; i++) {
        if (text[i] == '"' || text[i] == '\\')
            putc('\\', to);
        print_byte(to, text[i]);
    }
    putc('"', to);
}

/* Format characters and separators of lines and paragraphs (Unicode's Cf, Zl and Zp): they show nothing themselves, and
 * change how the others are shown. */
static int steers(uint32_t c)
{
    static const uint32_t ranges[][2] = {
        {0x00AD, 0x00AD}, {0x0600, 0x0605}, {0x061C, 0x061C}, {0x06DD, 0x06DD}, {0x070F, 0x070F}, {0x0890, 0x0891},
        {0x08E2, 0x08E2}, {0x180E, 0x180E}, {0x200B, 0x200F}, {0x2028, 0x202E}, {0x2060, 0x206F}, {0xFEFF, 0xFEFF},
        {0xFFF9, 0xFFFB}, {0x110BD, 0x110BD}, {0x110CD, 0x110CD}, {0x13430, 0x1343F}, {0x1BCA0, 0x1BCA3}, {0x1D173, 0x1D17A},
        {0xE0001, 0xE0001}, {0xE0020, 0xE007F},
    };
    for (size_t i = 0; i < sizeof ranges / sizeof ranges[0]; i++)
        if (c >= ranges[i][0] && c <= ranges[i][1])
            return 1;
    return 0;
}

/* The character of so many bytes. */
static uint32_t code_point(const uint8_t *s, size_t length)
{
    uint32_t c = length == 1 ? s[0] : s[0] & (0x7Fu >> length);
    for (size_t i = 1; i < length; i++)
        c = c << 6 | (s[i] & 0x3Fu);
    return c;
}

/* How many bytes the character has that begins here, in UTF-8; 0 for one that controls or steers, for a backslash, and for
 * what is no character. */
static size_t character(const uint8_t *s)
{
    size_t length = s[0] < 0xC2 ? 1 : s[0] < 0xE0 ? 2 : s[0] < 0xF0 ? 3 : 4;
    if (s[0] < 0x20 || s[0] == 0x7F || s[0] == '\\' || (s[0] >= 0x80 && s[0] < 0xC2) || s[0] > 0xF4)
        return 0;
    for (size_t i = 1; i < length; i++)
        if (s[i] < 0x80 || s[i] > 0xBF)
            return 0;
    /* control characters of two bytes; what is written longer than it need be, surrogates, and what lies beyond the last */
    if ((s[0] == 0xC2 && s[1] < 0xA0) || (s[0] == 0xE0 && s[1] < 0xA0) || (s[0] == 0xED && s[1] > 0x9F) ||
        (s[0] == 0xF0 && s[1] < 0x90) || (s[0] == 0xF4 && s[1] > 0x8F))
        return 0;
    return steers(code_point(s, length)) ? 0 : length;
}

void print_name(FILE *to, const char *name)
{
    const uint8_t *s = (const uint8_t *)name;
    while (*s != 0) {
        size_t length = character(s);
        if (length > 0)
            fwrite(s, 1, length, to);
        else if (*s == '\\')
            fputs("\\\\", to);
        else
            fprintf(to, "\\x%02x", *s);
        s += length == 0 ? 1 : length;
    }
}

const char *plural(uint64_t count)
{
    return count == 1 ? "" : "s";
}

const char *type_name(unsigned data_type)
{
    static const char *const names[17] = {
        "unsigned integer", "signed integer", "32-bit float", "64-bit float",
        "VAX F float", "VAX G float", "VAX D float", "text", "bytes",
        "unsigned integer, big endian", "signed integer, big endian", "32-bit float, big endian", "64-bit float, big endian",
        "unsigned integer, little endian", "signed integer, little endian", "32-bit float, little endian", "64-bit float, little endian",
    };
    return data_type < 17 ? names[data_type] : "unknown";
}
