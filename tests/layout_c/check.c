/* Checks random messages, some of them mutated, against random tables, some of them hostile. After a yes, reads all of the message by
 * what the table says: nothing may be refused, and no word be charged. After a no, what is read in the same order without limits is
 * refused at the same place; and for the same reason, unless capnp_layout_validate has the one of the check. To be run with sanitizers.
 *
 *     check ROUNDS [SEED]
 *
 * The last line is `N passed, M failed`. */
#include <stdlib.h>

#include "capnp_layout.h"
#include "made.h"

enum { WORDS = 40, ANY = 0, CAPABILITY = 1, TEXT = 2, UTF8 = 3, DATA = 4, STRUCT = 5, ANY_LIST = 6, TEST = 7, LIST = 8 };

/* A table: its words, in memory of its own, and their number. */
static uint32_t *table;
static uint32_t table_words;
static unsigned long yes, no, misfits, objects, of_rows;

static uint32_t word_of(uint64_t at) { return at < table_words ? table[at] : 0; }

/* What is wrong first, if something is: the refusal, if it is known, and where. */
struct fault {
    bool is_found, is_named;
    uint32_t refusal;
    struct capnp_misfit at;
};

/* The walk over a message by a table. */
struct walk {
    struct capnp_message *message;
    struct fault fault;
};

/* A pointer: its place; what it may lead to, and the row below it; and the row and the index for a fault. */
struct place {
    uint64_t segment;
    uint32_t word;
    int32_t nesting;
    uint32_t kind, below, row, index;
};

static void read_place(struct walk *walk, struct place at);

/* A refusal at a pointer; `is_named` if the check has to give the same. Returns whether there is one. */
static bool refused(struct walk *walk, struct place at, uint32_t refusal, bool is_named) {
    if (refusal == 0) return false;
    if (!walk->fault.is_found) {
        memset(&walk->fault, 0, sizeof walk->fault);
        walk->fault.is_found = true;
        walk->fault.is_named = is_named;
        walk->fault.refusal = refusal;
        walk->fault.at.segment = at.segment;
        walk->fault.at.word = at.word;
        walk->fault.at.row = at.row;
        walk->fault.at.index = at.index;
    }
    return true;
}

/* The word for pointer `index` of a struct, without tests. */
static uint32_t kind_in(uint32_t row, const struct capnp_struct *of, uint32_t index) {
    uint32_t kind = index < word_of(row) ? word_of((uint64_t)row + 1 + index) : ANY;
    while ((kind & 15) == TEST) {
        uint32_t at = kind >> 4, tag = 0;
        uint64_t offset = 2 * (uint64_t)word_of(at);
        if (offset <= UINT32_MAX) tag = capnp_get_u16(of, (uint32_t)offset, 0);
        kind = word_of((uint64_t)at + (tag == word_of((uint64_t)at + 1) ? 2 : 3));
        if ((kind & 15) == TEST && kind >> 4 <= at) kind = ANY;
    }
    return kind;
}

/* Reads the pointers of a struct with this row, or of one that the table doesn't know. */
static void read_pointers(struct walk *walk, const struct capnp_struct *of, uint32_t row, bool is_known) {
    uint32_t i;
    for (i = 0; i < of->at.pointers && !walk->fault.is_found; i++) {
        struct place at;
        at.segment = of->at.segment;
        at.word = of->at.pointers_at + i;
        at.nesting = of->at.nesting;
        at.below = is_known ? kind_in(row, of, i) : ANY;
        at.kind = at.below & 15;
        at.below >>= 4;
        at.row = is_known ? row : 0;
        at.index = i;
        of_rows += is_known && at.kind != ANY;
        read_place(walk, at);
    }
}

static void read_struct(struct walk *walk, struct place at, bool is_known) {
    struct capnp_struct of;
    uint32_t refusal;
    of.message = walk->message;
    refusal = capnp_layout_struct(&walk->message->segments, &walk->message->left, at.segment, at.word, at.nesting, &of.at);
    if (!refused(walk, at, refusal, is_known)) read_pointers(walk, &of, at.below, is_known);
}

static void read_elements(struct walk *walk, const struct capnp_list *list, uint32_t row, bool is_known) {
    uint32_t i;
    for (i = 0; i < list->at.count && (list->at.pointers || i < 8) && !walk->fault.is_found; i++) {
        struct capnp_struct element = capnp_get_element(list, i);
        capnp_element_u64(list, i);
        read_pointers(walk, &element, row, is_known);
    }
}

/* Reads a list of elements of some size, or of any. */
static void read_list(struct walk *walk, struct place at, bool is_known) {
    struct capnp_list list;
    uint32_t size = is_known ? at.kind - LIST : CAPNP_VOID, refusal;
    list.message = walk->message;
    refusal = capnp_layout_list(&walk->message->segments, &walk->message->left, at.segment, at.word, at.nesting, size, &list.at);
    if (!is_known && refusal == CAPNP_FOUND_BIT_LIST_WHERE_STRUCT_LIST_WAS_EXPECTED)
        refusal = capnp_layout_list(&walk->message->segments, &walk->message->left, at.segment, at.word, at.nesting, CAPNP_BIT, &list.at);
    if (!refused(walk, at, refusal, is_known)) read_elements(walk, &list, at.below, is_known);
}

static bool is_utf8(const uint8_t *bytes, uint64_t size) {
    uint64_t i = 0;
    while (i < size) {
        uint32_t c = bytes[i], more = c < 0x80 ? 0 : c < 0xc2 ? 9 : c < 0xe0 ? 1 : c < 0xf0 ? 2 : c < 0xf5 ? 3 : 9, k;
        uint32_t code = more == 0 ? c : c & (0x3fu >> more);
        if (more == 9 || size - i <= more) return false;
        for (k = 1; k <= more; k++) {
            if ((bytes[i + k] & 0xc0) != 0x80) return false;
            code = code << 6 | (bytes[i + k] & 0x3f);
        }
        if ((more == 2 && code < 0x800) || (more == 3 && (code < 0x10000 || code > 0x10ffff)) || (code >= 0xd800 && code < 0xe000)) return false;
        i += more + 1;
    }
    return true;
}

static void read_bytes(struct walk *walk, struct place at) {
    struct capnp_found_bytes bytes;
    uint32_t refusal;
    if (at.kind == DATA) {
        refusal = capnp_layout_data(&walk->message->segments, &walk->message->left, at.segment, at.word, at.nesting, &bytes);
    } else {
        refusal = capnp_layout_text(&walk->message->segments, &walk->message->left, at.segment, at.word, at.nesting, &bytes);
        if (refusal == 0 && at.kind == UTF8 && !is_utf8(bytes.bytes, bytes.size)) {
            refused(walk, at, UINT32_MAX, false);
            return;
        }
    }
    refused(walk, at, refusal, true);
}

static void read_capability(struct walk *walk, struct place at, uint32_t type) {
    uint32_t index = 77, refusal;
    if (type == CAPNP_TYPE_CAPABILITY) {
        /* one behind a far pointer isn't read */
        refusal = capnp_layout_capability(&walk->message->segments, at.segment, at.word, &index);
        expect(refusal == 0 || refusal == CAPNP_MESSAGE_CONTAINS_NON_CAPABILITY_POINTER_WHERE_CAPABILITY_POINTER_WAS_EXPECTED, "capability");
    } else if (type != CAPNP_TYPE_NULL) {
        refused(walk, at, CAPNP_MESSAGE_CONTAINS_NON_CAPABILITY_POINTER_WHERE_CAPABILITY_POINTER_WAS_EXPECTED, false);
    }
}

/* Reads what the pointer leads to, by its kind. */
static void read_place(struct walk *walk, struct place at) {
    uint32_t type = 77, refusal;
    if (walk->fault.is_found) return;
    refusal = capnp_layout_type(&walk->message->segments, &walk->message->left, at.segment, at.word, &type);
    if (refused(walk, at, refusal, false)) return;
    objects += type != CAPNP_TYPE_NULL;
    switch (at.kind) {
    case CAPABILITY: read_capability(walk, at, type); break;
    case TEXT:
    case UTF8:
    case DATA: read_bytes(walk, at); break;
    case STRUCT: read_struct(walk, at, true); break;
    case ANY:
        if (type == CAPNP_TYPE_STRUCT) read_struct(walk, at, false);
        if (type == CAPNP_TYPE_LIST) read_list(walk, at, false);
        break;
    case ANY_LIST:
        if (type == CAPNP_TYPE_LIST) read_list(walk, at, false);
        else if (type != CAPNP_TYPE_NULL) refused(walk, at, CAPNP_MESSAGE_CONTAINS_NON_LIST_POINTER_WHERE_LIST_POINTER_WAS_EXPECTED, false);
        break;
    default: read_list(walk, at, true);
    }
}

/* What is wrong with the message by the table, read with no limit. */
static struct fault fault_of(struct capnp_message *message, uint32_t row, int32_t nesting) {
    struct walk walk;
    struct place root;
    memset(&walk, 0, sizeof walk);
    memset(&root, 0, sizeof root);
    walk.message = message;
    root.nesting = nesting;
    root.kind = STRUCT;
    root.below = row;
    read_place(&walk, root);
    return walk.fault;
}

/* Whether the message is refused like this without a schema, too: the check reads an object before it looks at its kind. */
static bool is_unsound(const struct capnp_message *message, int32_t nesting, uint32_t refusal, struct capnp_misfit misfit) {
    uint64_t left = CAPNP_WORDS, segment;
    uint32_t word;
    return capnp_layout_validate(&message->segments, &left, nesting, &segment, &word) == refusal && segment == misfit.segment && word == misfit.word;
}

static void expect_misfit(struct capnp_misfit found, struct capnp_misfit wanted, const char *what) {
    expect(found.segment == wanted.segment && found.word == wanted.word && found.row == wanted.row && found.index == wanted.index, what);
}

/* A check of a message with these limits, by the library and by the header. */
static void check(const struct capnp_segment *list, uint32_t count, uint32_t row) {
    struct capnp_message message;
    bool is_free = below(3) != 0;
    uint64_t limit = is_free ? CAPNP_WORDS : below(60), left = limit;
    int32_t nesting = is_free ? 64 : (int32_t)below(6);
    struct capnp_misfit misfit;
    struct fault fault;
    uint32_t refusal;
    memset(&misfit, 0x77, sizeof misfit);
    expect(capnp_open(&message, list, count) == 0, "open");
    refusal = capnp_layout_check(&message.segments, table, table_words, row, &left, nesting, &misfit);
    message.left = limit;
    message.nesting = nesting;
    expect(capnp_check(&message, table, table_words, row) == refusal && message.refusal == refusal, "the refusal that is kept");
    if (refusal == 0) {
        yes++;
        expect(misfit.segment == 0 && misfit.word == 0 && misfit.row == 0 && misfit.index == 0, "no misfit");
        expect(message.left == CAPNP_NO_LIMIT && left < limit, "no limit");
        fault = fault_of(&message, row, nesting);
        expect(!fault.is_found, "nothing is refused after a check");
        expect(message.left == CAPNP_NO_LIMIT && message.refusal == 0, "nothing is taken after a check");
        return;
    }
    no++;
    expect(message.left == limit && message.refused_segment == misfit.segment && message.refused_word == misfit.word &&
               message.refused_row == misfit.row && message.refused_index == misfit.index, "what is kept");
    expect(capnp_check(&message, table, table_words, row) == refusal, "the refusal again");
    if (is_free && count != 0 && list[0].size >= 8) {
        message.left = CAPNP_NO_LIMIT;
        fault = fault_of(&message, row, nesting);
        misfits += fault.is_named;
        expect(fault.is_found, "something is refused after a no");
        expect(!fault.is_named || fault.refusal == refusal || is_unsound(&message, nesting, refusal, misfit), "the refusal of a reader");
        expect_misfit(misfit, fault.at, "the place of a reader's refusal");
    }
}

/* A word for a pointer, of tables with rows at these positions. */
static uint32_t some_kind(const uint32_t *rows, uint32_t count) {
    uint32_t kind = below(16);
    if (kind == STRUCT || kind >= LIST) return kind | rows[below(count)] << 4;
    return kind == TEST ? (uint32_t)ANY : kind;
}

/* A table as generators write them: rows, and tests after them. */
static uint32_t put_table(void) {
    uint32_t rows[4], count = 1 + below(4), at = 1, i, k;
    uint32_t words[WORDS] = {0};
    for (i = 0; i < count; i++) {
        rows[i] = at;
        words[at] = below(3);
        at += 1 + words[at];
    }
    for (i = 0; i < count; i++) {
        for (k = 0; k < words[rows[i]]; k++) {
            uint32_t *kind = &words[rows[i] + 1 + k];
            *kind = some_kind(rows, count);
            if (below(4) == 0 && at + 4 <= WORDS) {
                words[at] = below(5);
                words[at + 1] = below(2);
                words[at + 2] = some_kind(rows, count);
                words[at + 3] = *kind;
                *kind = TEST | at << 4;
                at += 4;
            }
        }
    }
    table_words = at;
    memcpy(table, words, at * sizeof *words);
    return rows[below(count)];
}

/* A table of any words. */
static uint32_t put_hostile_table(void) {
    uint32_t i;
    table_words = below(WORDS + 1);
    for (i = 0; i < table_words; i++) {
        switch (below(4)) {
        case 0: table[i] = (uint32_t)any(); break;
        case 1: table[i] = below(4); break;
        default: table[i] = below(16) | below(WORDS) << 4;
        }
    }
    return below(3) ? below(WORDS) : (uint32_t)any();
}

static void message(void) {
    struct capnp_segment list[MOST];
    uint32_t i, k;
    make();
    for (i = 0; i < segments; i++) {
        uint8_t *bytes = (uint8_t *)malloc(8 * used[i] + 1);
        if (!bytes) abort();
        memcpy(bytes, made[i], 8 * used[i]);
        list[i].bytes = bytes;
        list[i].size = 8 * used[i];
    }
    for (k = 0; k < 12; k++) {
        uint32_t row, whole[WORDS];
        table = whole;
        row = below(3) ? put_table() : put_hostile_table();
        /* exactly as large as it is, for the sanitizer */
        table = (uint32_t *)malloc(table_words * sizeof *table + (table_words == 0));
        if (!table) abort();
        memcpy(table, whole, table_words * sizeof *table);
        check(list, segments, row);
        free(table);
    }
    for (i = 0; i < segments; i++) free((void *)(uintptr_t)list[i].bytes);
}

int main(int given, char **words) {
    long rounds = given > 1 ? atol(words[1]) : 1000, round;
    if (given > 2) state ^= strtoull(words[2], NULL, 10) * UINT64_C(0x9e3779b97f4a7c15);
    for (round = 0; round < rounds; round++) message();
    printf("%lu conform, %lu don't, %lu misfits were named; %lu objects, %lu of a known kind\n", yes, no, misfits, objects, of_rows);
    printf("%lu passed, %lu failed\n", passed, failed);
    return failed != 0;
}
