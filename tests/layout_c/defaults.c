/* Reads pointers that have default values, those of defaults.capnp, with messages that have the pointers and that don't.
 *
 *     defaults SET UNSET      reads the frames of its constants `set` and `unset`, files that `capnp eval -b` wrote
 *     defaults words          writes the words of the default value of `inner`
 *
 * The last line is `N passed, M failed`. */
#include <inttypes.h>
#include <stdio.h>
#include <stdlib.h>

#include "capnp_layout.h"

/* What a generator would write: each default as the words of one segment, its pointer first. */
static const uint8_t inner_words[] = {0, 0, 0, 0, 1, 0, 1, 0, 5, 0, 0, 0, 0, 0, 0, 0, 1, 0, 0, 0, 0x2a, 0, 0, 0, 'f', 'i', 'v', 'e', 0, 0, 0, 0};
static const uint8_t numbers_words[] = {1, 0, 0, 0, 0x1b, 0, 0, 0, 1, 0, 2, 0, 0x2c, 1, 0, 0};
static const uint8_t text_words[] = {1, 0, 0, 0, 0x42, 0, 0, 0, 'd', 'e', 'f', 'a', 'u', 'l', 't', 0};
static const uint8_t data_words[] = {1, 0, 0, 0, 0x1a, 0, 0, 0, 0, 0xff, 1, 0, 0, 0, 0, 0};
static const uint8_t inners_words[] = {1,    0, 0, 0, 0x27, 0,   0,   0,   8, 0, 0, 0, 1, 0, 1, 0, 1, 0, 0, 0, 0, 0, 0, 0, 0, 0, 0, 0, 0, 0, 0, 0, 2, 0, 0, 0, 0, 0, 0, 0, 1, 0, 0, 0,
                                       0x22, 0, 0, 0, 't',  'w', 'o', 0, 0, 0, 0, 0};
CAPNP_DEFAULT(inner_default, inner_words);
CAPNP_DEFAULT(numbers_default, numbers_words);
CAPNP_DEFAULT(text_default, text_words);
CAPNP_DEFAULT(data_default, data_words);
CAPNP_DEFAULT(inners_default, inners_words);

static unsigned long passed, failed;

static void expect(bool is_so, const char *what) {
    if (is_so) {
        passed++;
    } else {
        failed++;
        printf("FAILED: %s\n", what);
    }
}

static bool is_text(struct capnp_text it, const char *wanted) { return it.size == strlen(wanted) && memcmp(it.text, wanted, it.size + 1) == 0; }

static void read_inner(struct capnp_struct it, uint32_t number, const char *text) {
    expect(capnp_get_u32(&it, 0, 0) == number, "number");
    expect(is_text(capnp_get_text(&it, 0), text), "text of a struct");
}

static size_t read_file(const char *name, uint8_t *to, size_t room) {
    FILE *file = fopen(name, "rb");
    size_t size = file ? fread(to, 1, room, file) : 0;
    if (!file || size == 0) {
        fprintf(stderr, "defaults: can't read %s\n", name);
        exit(2);
    }
    fclose(file);
    return size;
}

static struct capnp_struct root_of(struct capnp_message *message, struct capnp_segment *room, const char *name, uint8_t *frame, size_t most) {
    size_t size = read_file(name, frame, most);
    expect(capnp_open_frame(message, frame, size, room, 1, NULL) == 0, "open");
    return capnp_root(message);
}

static void set(const char *name) {
    static uint8_t frame[1000];
    struct capnp_message message;
    struct capnp_segment room;
    struct capnp_struct root = root_of(&message, &room, name, frame, sizeof frame);
    struct capnp_list numbers = capnp_get_list_or(&root, 1, CAPNP_TWO_BYTES, &numbers_default);
    struct capnp_data data = capnp_get_data_or(&root, 3, &data_default);
    struct capnp_list inners = capnp_get_list_or(&root, 4, CAPNP_STRUCT, &inners_default);
    read_inner(capnp_get_struct_or(&root, 0, &inner_default), 6, "six");
    expect(capnp_count(&numbers) == 1 && capnp_element_u16(&numbers, 0) == 7, "numbers");
    expect(is_text(capnp_get_text_or(&root, 2, &text_default), "eight"), "text");
    expect(data.size == 1 && data.bytes[0] == 9, "data");
    expect(capnp_count(&inners) == 0 && inners.message == &message, "no structs");
    expect(message.refusal == 0, "no refusal");
}

static void read_defaults(const struct capnp_struct *root) {
    struct capnp_message before = *root->message;
    struct capnp_list numbers = capnp_get_list_or(root, 1, CAPNP_TWO_BYTES, &numbers_default);
    struct capnp_data data = capnp_get_data_or(root, 3, &data_default);
    struct capnp_list inners = capnp_get_list_or(root, 4, CAPNP_STRUCT, &inners_default);
    read_inner(capnp_get_struct_or(root, 0, &inner_default), 5, "five");
    expect(capnp_count(&numbers) == 3 && capnp_element_u16(&numbers, 0) == 1 && capnp_element_u16(&numbers, 1) == 2 && capnp_element_u16(&numbers, 2) == 300, "default numbers");
    expect(is_text(capnp_get_text_or(root, 2, &text_default), "default"), "default text");
    expect(data.size == 3 && memcmp(data.bytes, data_words + 8, 3) == 0, "default data");
    expect(capnp_count(&inners) == 2, "default structs");
    read_inner(capnp_get_element(&inners, 0), 1, "");
    read_inner(capnp_get_element(&inners, 1), 2, "two");
    expect(memcmp(&before, root->message, sizeof before) == 0, "defaults are free of charge");
}

/* Defaults that aren't what is asked for: nothing is read, kept or written. */
static void read_others(struct capnp_struct root) {
    struct capnp_message before = *root.message;
    struct capnp_struct none = capnp_get_struct_or(&root, 0, &text_default);
    struct capnp_list list = capnp_get_list_or(&root, 0, CAPNP_POINTER, &data_default);
    expect(none.at.size == 0 && none.at.pointers == 0, "no default struct");
    expect(capnp_count(&list) == 0, "no default list");
    expect(capnp_get_text_or(&root, 0, &inner_default).size == 0 && capnp_get_data_or(&root, 0, &inner_default).size == 0, "no default text");
    root.at.nesting = 0;
    none = capnp_get_struct_or(&root, 0, &inner_default);
    expect(none.at.size == 0 && none.at.pointers == 0, "no level for a default");
    expect(is_text(capnp_get_text_or(&root, 0, &text_default), "default"), "a text takes no level");
    expect(memcmp(&before, root.message, sizeof before) == 0, "no refusal of a default is kept");
}

static void unset(const char *name) {
    static uint8_t frame[1000];
    struct capnp_message message;
    struct capnp_segment room;
    struct capnp_struct root = root_of(&message, &room, name, frame, sizeof frame);
    expect(root.at.pointers == 0 || !capnp_has(&root, 0), "a null pointer");
    read_defaults(&root);
    read_others(root);
    root.at.pointers = 0;
    read_defaults(&root);
    message.left = 0;
    read_defaults(&root);
    expect(capnp_validate(&message) == CAPNP_READ_LIMIT_EXCEEDED && message.left == 0, "no word left");
    read_defaults(&root);
}

int main(int given, char **words) {
    if (given == 2) return fwrite(inner_words, 1, sizeof inner_words, stdout) != sizeof inner_words;
    if (given != 3) return 2;
    set(words[1]);
    unset(words[2]);
    printf("%lu passed, %lu failed\n", passed, failed);
    return failed != 0;
}
