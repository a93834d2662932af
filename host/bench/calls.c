/* The calls that the benchmark loads from an archive, and the structs they give,
 * as src/archive.rs has them. It is never run: that it compiles with a
 * checkout's pension.h says that the archive made there can be loaded. */
#include "pension.h"

/* The calls. With another prototype in the header these are errors. */
struct pension_quote (*const quote)(const uint8_t *, size_t) = pension_quote;
struct pension_checked (*const check)(const uint8_t *, size_t, size_t) = pension_check;
size_t (*const file_all)(uint8_t *, size_t, uint32_t, const uint8_t *, size_t, uint8_t *, size_t) = pension_file_all;
struct pension_found (*const find_number)(const uint8_t *, size_t, size_t, uint32_t) = pension_find_number;
struct pension_found_member (*const find_member)(const uint8_t *, size_t, size_t, uint32_t) = pension_find_member;

/* The structs, in bytes: the size of each, and each field's offset and size. */
#define STRUCT(name, size) _Static_assert(sizeof(struct name) == (size), #name)
#define FIELD(name, field, offset, size)                                        \
    _Static_assert(offsetof(struct name, field) == (offset)                     \
                       && sizeof(((struct name *)0)->field) == (size),          \
                   #name "." #field)

STRUCT(pension_quote, 112);
FIELD(pension_quote, refusal, 0, 4);
FIELD(pension_quote, member, 4, 4);
FIELD(pension_quote, total, 8, 8);
FIELD(pension_quote, lump, 16, 32);
FIELD(pension_quote, remaining, 48, 32);
FIELD(pension_quote, second, 80, 32);

STRUCT(pension_checked, 16);
FIELD(pension_checked, refusal, 0, 4);
FIELD(pension_checked, offset, 8, 8);

STRUCT(pension_found, 24);
FIELD(pension_found, refusal, 0, 4);
FIELD(pension_found, offset, 8, 8);
FIELD(pension_found, length, 16, 8);

STRUCT(pension_found_member, 32);
FIELD(pension_found_member, refusal, 0, 4);
FIELD(pension_found_member, offset, 8, 8);
FIELD(pension_found_member, length, 16, 8);
FIELD(pension_found_member, compared, 24, 8);
