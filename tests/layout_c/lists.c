/* Reads the constant `lists` of lists.capnp from a frame on standard input: each list as what it is, and then as what another
 * version of the schema may have: numbers as structs, structs as numbers, pointers as structs, structs as pointers. Prints
 * what it reads, a line for each list. */
#include <stdio.h>

#include "capnp_layout.h"

static struct capnp_message message;

/* The list in a field, and the refusal of reading it, which is then forgotten. */
static struct capnp_list listed(const struct capnp_struct *of, uint16_t index, enum capnp_size size, const char *name) {
    struct capnp_list found = capnp_get_list(of, index, size);
    printf("%s: %u", name, (unsigned)capnp_count(&found));
    if (message.refusal != 0) printf(" refusal %u", (unsigned)message.refusal);
    message.refusal = 0;
    return found;
}

#define EACH(INDEX, SIZE, NAME, FORMAT, SHOWN)                                                                          \
    do {                                                                                                                \
        struct capnp_list all = listed(&root, INDEX, SIZE, NAME);                                                       \
        uint32_t i;                                                                                                     \
        for (i = 0; i < capnp_count(&all); i++) printf(" " FORMAT, SHOWN);                                              \
        putchar('\n');                                                                                                  \
    } while (0)

/* A text of element i, read as a struct. */
static const char *text_of(const struct capnp_list *all, uint32_t i, uint16_t index) {
    struct capnp_struct element = capnp_get_element(all, i);
    return capnp_get_text(&element, index).text;
}

static unsigned field_of(const struct capnp_list *all, uint32_t i, uint32_t offset) {
    struct capnp_struct element = capnp_get_element(all, i);
    return capnp_get_u16(&element, offset, 5);
}

static void each_kind(struct capnp_struct root) {
    EACH(0, CAPNP_VOID, "voids", "%d", (int)i * 0);
    EACH(1, CAPNP_BIT, "bools", "%d", capnp_element_bool(&all, i));
    EACH(2, CAPNP_BYTE, "bytes", "%u", (unsigned)capnp_element_u8(&all, i));
    EACH(3, CAPNP_TWO_BYTES, "shorts", "%d", (int)capnp_element_i16(&all, i));
    EACH(4, CAPNP_FOUR_BYTES, "ints", "%lu", (unsigned long)capnp_element_u32(&all, i));
    EACH(5, CAPNP_EIGHT_BYTES, "longs", "%lld", (long long)capnp_element_i64(&all, i));
    EACH(6, CAPNP_FOUR_BYTES, "floats", "%g", (double)capnp_element_f32(&all, i));
    EACH(7, CAPNP_EIGHT_BYTES, "doubles", "%g", capnp_element_f64(&all, i));
    EACH(8, CAPNP_POINTER, "texts", "'%s'", capnp_element_text(&all, i).text);
    EACH(9, CAPNP_POINTER, "datas", "%u", (unsigned)capnp_element_data(&all, i).size);
    EACH(11, CAPNP_STRUCT, "pairs", "%u", field_of(&all, i, 0) ^ 5u);
}

static void nested(struct capnp_struct root) {
    struct capnp_list all = listed(&root, 10, CAPNP_POINTER, "nested");
    uint32_t i, k;
    for (i = 0; i < capnp_count(&all); i++) {
        struct capnp_list inner = capnp_element_list(&all, i, CAPNP_BYTE);
        printf(" [");
        for (k = 0; k < capnp_count(&inner); k++) printf(" %u", (unsigned)capnp_element_u8(&inner, k));
        printf(" ]");
    }
    putchar('\n');
}

/* Lists as other versions of the schema have them. */
static void upgraded(struct capnp_struct root) {
    EACH(3, CAPNP_STRUCT, "shorts as structs", "%u", field_of(&all, i, 0) ^ 5u);
    EACH(3, CAPNP_STRUCT, "missing fields of shorts", "%u", field_of(&all, i, 2));
    EACH(11, CAPNP_TWO_BYTES, "pairs as numbers", "%u", (unsigned)capnp_element_u16(&all, i));
    EACH(11, CAPNP_POINTER, "pairs as texts", "'%s'", capnp_element_text(&all, i).text);
    EACH(8, CAPNP_STRUCT, "texts as structs", "'%s'", text_of(&all, i, 0));
    EACH(8, CAPNP_STRUCT, "missing texts", "'%s'", text_of(&all, i, 1));
    EACH(1, CAPNP_STRUCT, "bools as structs", "%d", 0);
    EACH(2, CAPNP_TWO_BYTES, "bytes as shorts", "%d", 0);
    EACH(11, CAPNP_BIT, "pairs as bools", "%d", 0);
    EACH(2, CAPNP_VOID, "bytes as voids", "%d", 0);
}

int main(void) {
    static uint8_t frame[1 << 16];
    struct capnp_segment room[4];
    struct capnp_struct root;
    struct capnp_list any;
    uint32_t capability;
    size_t size = fread(frame, 1, sizeof frame, stdin);
    if (capnp_open_frame(&message, frame, size, room, 4, NULL) != 0) return 1;
    root = capnp_root(&message);
    each_kind(root);
    nested(root);
    upgraded(root);
    printf("types: %d %d %d\n", capnp_get_type(&root, 12), capnp_get_type(&root, 13), message.refusal);
    any = capnp_get_list(&root, 12, CAPNP_STRUCT);
    printf("any: %u\n", (unsigned)capnp_count(&any));
    printf("capability: %d", capnp_get_capability(&root, 12, &capability));
    printf(" refusal %u at word %u\n", (unsigned)message.refusal, (unsigned)message.refused_word);
    return 0;
}
