"""Writes a program in C over generated code: it prints messages, or copies each field of them, by the words `print` and `copy`; or by
the word `check`, it checks each against the schema, and reads all fields. It prints in the notation of `capnp decode`, except that enums are numbers, and floats their bits, and that bytes are lists."""
import re

from schema import BITS, DEFAULT_DEPTH, always, has_default, kind, members, name_of

HEAD = '''/* Prints or copies each message of standard input, by generated code. */
#include <inttypes.h>
#include <stdio.h>
#include <stdlib.h>

#include "{header}"

static void show_bytes(const char *bytes, size_t size) {{
    size_t i;
    putchar('[');
    for (i = 0; i < size; i++) printf("%u, ", (unsigned)(unsigned char)bytes[i]);
    putchar(']');
}}

static void show_f32(float value) {{
    uint32_t bits;
    memcpy(&bits, &value, sizeof bits);
    printf("%" PRIu32, bits);
}}

static void show_f64(double value) {{
    uint64_t bits;
    memcpy(&bits, &value, sizeof bits);
    printf("%" PRIu64, bits);
}}

/* Makes room at another address, in a buffer that is exactly as large as it has to be. */
static bool grow(struct capnp_builder *message, size_t wanted) {{
    uint8_t *larger = (uint8_t *)malloc(wanted + 8);
    if (!larger) return false;
    memset(larger, 0xaa, wanted + 8);
    memcpy(larger, message->bytes - 8, 8 + 8 * (size_t)message->used);
    free(message->bytes - 8);
    message->bytes = larger + 8;
    message->room = wanted;
    return true;
}}
'''
MAIN = '''
static void print_message(struct capnp_message *message, unsigned which) {{
    switch (which) {{
{shown}    }}
    puts("");
}}

static void copy_message(struct capnp_message *message, unsigned which) {{
    struct capnp_builder built;
    size_t size, i;
    const uint8_t *frame;
    void *buffer = malloc(16);
    if (!buffer) exit(2);
    capnp_start(&built, buffer, 16);
    built.grow = grow;
    switch (which) {{
{copied}    }}
    frame = capnp_finish(&built, &size);
    if (!frame) {{
        fprintf(stderr, "refusal %u of what is built\\n", (unsigned)built.refusal);
        exit(1);
    }}
    for (i = 0; i < size; i++) printf("%02x", frame[i]);
    puts("");
    free(built.bytes - 8);
}}

static uint32_t check_root(struct capnp_message *message, unsigned which) {{
    switch (which) {{
{checked}    default: return UINT32_MAX;
    }}
}}

static uint32_t open_root(struct capnp_message *message, const uint8_t *frame, size_t size, struct capnp_segment *room, size_t rooms,
                          size_t *used, unsigned which) {{
    switch (which) {{
{opened}    default: return UINT32_MAX;
    }}
}}

static const char *refused_by(const struct capnp_message *message, unsigned which) {{
    switch (which) {{
{refused}    default: return "";
    }}
}}

/* Checks a message by the table, in which a word may be another one, and writes the answer to standard error: `yes`; or `no`, the refusal, its place,
 * its row and index, and the name of its field; then the refusals of a reader without a check, and of capnp_validate. */
static int check_message(const uint8_t *frame, size_t size, struct capnp_segment *room, unsigned which, const uint32_t *table, size_t words) {{
    static const uint32_t rows[] = {{{rows}}};
    struct capnp_message message, again;
    size_t used;
    uint32_t refusal;
    if (capnp_open_frame(&message, frame, size, room, 512, &used) != 0) return 1;
    message.left = 100000;
    refusal = capnp_check(&message, table, words, rows[which]);
    if (refusal == 0) {{
        fputs("yes 0\\n", stderr);
        print_message(&message, which);
        if (message.refusal != 0 || message.left != CAPNP_NO_LIMIT) {{
            fprintf(stderr, "message: refusal %u after a check\\n", (unsigned)message.refusal);
            return 1;
        }}
        return 0;
    }}
    capnp_open_frame(&again, frame, size, room, 512, &used);
    again.left = 100000;
    print_message(&again, which);
    fprintf(stderr, "no %u %u %u %u %u %u", (unsigned)refusal, (unsigned)message.refused_segment, (unsigned)message.refused_word,
            (unsigned)message.refused_row, (unsigned)message.refused_index, (unsigned)again.refusal);
    capnp_open_frame(&again, frame, size, room, 512, &used);
    again.left = 100000;
    fprintf(stderr, " %u %s\\n", (unsigned)capnp_validate(&again), refused_by(&message, which));
    return 0;
}}

/* Checks all messages. Two further words are the position of a word of the table, and what it is instead. */
static int check_all(const uint8_t *bytes, size_t size, struct capnp_segment *room, int argc, char **argv) {{
    static uint32_t table[sizeof {table} / 4];
    size_t at = 0, used;
    unsigned i;
    memcpy(table, {table}, sizeof table);
    if (argc > 3) table[atoi(argv[2])] = (uint32_t)strtoul(argv[3], NULL, 10);
    for (i = 0; at < size; i++) {{
        struct capnp_message message;
        if (capnp_open_frame(&message, bytes + at, size - at, room, 512, &used) != 0) return 1;
        if (check_message(bytes + at, used, room, i % {count}, table, sizeof table / 4) != 0) return 1;
        at += used;
    }}
    return 0;
}}

int main(int argc, char **argv) {{
    static uint8_t bytes[1 << 26];
    static struct capnp_segment room[512];
    size_t size = fread(bytes, 1, sizeof bytes, stdin), at = 0, used;
    unsigned i;
{used}    if (argc > 1 && argv[1][0] == 'c' && argv[1][1] == 'h') return check_all(bytes, size, room, argc, argv);
    for (i = 0; at < size; i++) {{
        struct capnp_message message;
        /* of an altered message that is refused, the size is wanted */
        if (i % 4 == 3 && !(argc > 1 && argv[1][0] == 'a')) {{
            if (open_root(&message, bytes + at, size - at, room, 512, &used, i % {count}) != 0) return 1;
        }} else if (capnp_open_frame(&message, bytes + at, size - at, room, 512, &used) != 0) {{
            return 1;
        }}
        if (i % 4 == 1) capnp_validate(&message);
        if (i % 4 == 2) check_root(&message, i % {count});
        if (argc > 1 && argv[1][0] == 'c') copy_message(&message, i % {count});
        else print_message(&message, i % {count});
        if (message.refusal != 0 && argc > 1 && argv[1][0] == 'a') {{
            puts("refused");
        }} else if (message.refusal != 0) {{
            fprintf(stderr, "message %u: refusal %u\\n", i, (unsigned)message.refusal);
            return 1;
        }}
        at += used;
    }}
    return 0;
}}
'''
POINTERS = 'text', 'data', 'struct', 'list', 'interface', 'anyPointer'
# The words that get a `_` as the names of fields and groups.
WORDS = set('get has set init open build copy which list builder root default check refused'.split())
SIZES = {1: 'BIT', 8: 'BYTE', 16: 'TWO_BYTES', 32: 'FOUR_BYTES', 64: 'EIGHT_BYTES'}


def escaped(name):
    return name + '_' if name in WORDS else name


def type_name(node):
    """The C name of a declaration."""
    return '_'.join(escaped(it) if it[:1].islower() else it for it in node['full'].split('.'))


def suffix(of):
    """What ends the names of the runtime's calls for a number."""
    what = kind(of)
    if what == 'enum':
        return 'u16'
    return what if what == 'bool' else {'u': 'u', 'i': 'i', 'f': 'f'}[what[0]] + str(BITS[what])


def size(of):
    """The size of the elements of a list."""
    what = kind(of)
    return 'CAPNP_' + ('VOID' if what == 'void' else 'STRUCT' if what == 'struct' else SIZES[BITS[what]] if what in BITS else 'POINTER')


class Code:
    """The functions of a program for a schema."""

    def __init__(self, schema):
        self.schema, self.locals = schema, 0

    def local(self):
        self.locals += 1
        return f'v{self.locals}'

    def struct_of(self, of):
        return type_name(self.schema.declared(of))

    def show(self, of, got, to):
        """Prints a value that is read."""
        what, it = kind(of), self.local()
        if what == 'void':
            to.append('fputs("void", stdout);\n')
        elif what.startswith('float'):
            to.append(f'show_{suffix(of)}({got});\n')
        elif what == 'bool':
            to.append(f'fputs({got} ? "true" : "false", stdout);\n')
        elif what in BITS:
            signed, bits = ('u', 16) if what == 'enum' else (what[0], BITS[what])
            to.append(f'printf("%" PRI{"u" if signed == "u" else "d"}{bits}, {got});\n')
        elif what in ('text', 'data'):
            part = 'text' if what == 'text' else 'bytes'
            to.append(f'{{\nstruct capnp_{what} {it} = {got};\nshow_bytes((const char *){it}.{part}, {it}.size);\n}}\n')
        elif what == 'struct':
            to.append(f'{{\n{self.struct_of(of)} {it} = {got};\nshow_{self.struct_of(of)}(&{it}, depth - 1);\n}}\n')
        elif what == 'list':
            self.show_list(of['list']['elementType'], got, it, to)
        else:
            to.append('fputs("any", stdout);\n')

    def list_type(self, inner):
        return f'{self.struct_of(inner)}_list' if kind(inner) == 'struct' else 'struct capnp_list'

    def element(self, inner, it, index):
        """An element of a list that is read."""
        what = kind(inner)
        if what == 'struct':
            return f'{self.struct_of(inner)}_list_at(&{it}, {index})'
        if what in ('text', 'data'):
            return f'capnp_element_{what}(&{it}, {index})'
        if what == 'list':
            deeper = inner['list']['elementType']
            got = f'capnp_element_list(&{it}, {index}, {size(deeper)})'
            return f'({self.list_type(deeper)}){{{got}}}' if kind(deeper) == 'struct' else got
        return f'capnp_element_{suffix(inner)}(&{it}, {index})' if what in BITS else ''

    def count(self, inner, it):
        return f'{self.list_type(inner)}_count(&{it})' if kind(inner) == 'struct' else f'capnp_count(&{it})'

    def show_list(self, inner, got, it, to):
        index = self.local()
        to.append(f'{{\n{self.list_type(inner)} {it} = {got};\nuint32_t {index};\nputchar(\'[\');\n'
                  f'for ({index} = 0; {index} < {self.count(inner, it)}; {index}++) {{\n')
        self.show(inner, self.element(inner, it, index), to)
        to.append('fputs(", ", stdout);\n}\nputchar(\']\');\n}\n')

    def got(self, node, field):
        verb = 'get_' if 'group' in field else ''
        return f'{type_name(node)}_{verb}{escaped(name_of(field))}(r)'

    def show_field(self, node, field, to):
        to.append(f'fputs("{name_of(field)} = ", stdout);\n')
        if 'group' in field:
            group, it = type_name(self.schema.nodes[field['group']['typeId']]), self.local()
            to.append(f'{{\n{group} {it} = {self.got(node, field)};\nshow_{group}(&{it}, depth - 1);\n}}\n')
        else:
            of = field['slot']['type']
            is_member = field in members(node)
            may_be_null = not is_member and kind(of) in ('struct', 'list', 'anyPointer', 'interface') and not has_default(field)
            to.append(f'if (!{type_name(node)}_has_{escaped(name_of(field))}(r)) {{\nfputs("null", stdout);\n}} else {{\n' if may_be_null else '')
            if has_default(field):
                # a default value may contain its own type, whose fields have it as their default value again
                before = self.local()
                to.append(f'{{\nconst int {before} = depth;\nif (!{type_name(node)}_has_{escaped(name_of(field))}(r) && depth > {DEFAULT_DEPTH}) depth = {DEFAULT_DEPTH};\n')
            self.show(of, self.got(node, field), to)
            to.append(f'depth = {before};\n}}\n' if has_default(field) else '')
            to.append('}\n' if may_be_null else '')

    def variants(self, node, write, unknown, to):
        """A switch over the members of a union."""
        name = type_name(node)
        to.append(f'switch ({name}_get_which(r)) {{\n')
        for field in members(node):
            to.append(f'case {name}_which_{name_of(field)}:\n')
            write(node, field, to)
            to.append('break;\n')
        to.append(f'default: {unknown}break;\n}}\n')

    def shower(self, node):
        body, name = [], type_name(node)
        for field in always(node):
            self.show_field(node, field, body)
            body.append('fputs(", ", stdout);\n')
        if members(node):
            self.variants(node, self.show_field, f'printf("unknown = %u", (unsigned){name}_get_which(r)); ', body)
        return (f'\nstatic void show_{name}(const {name} *r, int depth) {{\n(void)r;\nif (depth == 0) {{\nfputs("deep", stdout);\nreturn;\n}}\n'
                f'putchar(\'(\');\n{"".join(body)}putchar(\')\');\n}}\n')

    def copy_elements(self, of, got, made, to):
        """Copies the elements of a list: `got` is the list, and `made` makes the new one of a number of elements."""
        it, new, index = self.local(), self.local(), self.local()
        to.append(f'{{\n{self.list_type(of)} {it} = {got};\nuint32_t {index};\n{self.list_type(of).replace("_list", "_list_builder")} {new} = {made(self.count(of, it))};\n'
                  f'(void){new};\nfor ({index} = 0; {index} < {self.count(of, it)}; {index}++) {{\n')
        what, element = kind(of), self.element(of, it, index)
        if what == 'struct':
            one, other, name = self.local(), self.local(), self.struct_of(of)
            to.append(f'{name} {one} = {element};\n{name}_builder {other} = {name}_list_builder_at(&{new}, {index});\ncopy_{name}(&{one}, &{other}, depth - 1);\n')
        elif what == 'list':
            deeper, other = of['list']['elementType'], self.local()
            to.append(f'struct capnp_struct_builder {other} = capnp_builder_element(&{new}, {index});\n')
            self.copy_elements(deeper, element, lambda count: self.made(deeper, other, count), to)
        elif what in ('text', 'data'):
            value, other = self.local(), self.local()
            call, part = ('set_text_n', 'text') if what == 'text' else ('set_data', 'bytes')
            to.append(f'struct capnp_{what} {value} = {element};\nstruct capnp_struct_builder {other} = capnp_builder_element(&{new}, {index});\n'
                      f'capnp_{call}(&{other}, 0, {value}.{part}, {value}.size);\n')
        elif what in BITS:
            to.append(f'capnp_set_element_{suffix(of)}(&{new}, {index}, {element});\n')
        to.append('}\n}\n')

    def made(self, of, place, count):
        """Makes a list in a list."""
        if kind(of) == 'struct':
            sizes = self.schema.declared(of)['struct']
            return f'{{capnp_init_struct_list(&{place}, 0, {count}, {sizes["dataWordCount"]}, {sizes["pointerCount"]})}}'
        return f'capnp_init_list(&{place}, 0, {size(of)}, {count})'

    def copy_pointer(self, node, field, to):
        """Copies a struct or a list: as a whole, into a new one, or into one that is opened."""
        of, start, name = field['slot']['type'], type_name(node), escaped(name_of(field))
        way = int(field['slot']['offset']) % 3
        if way == 2:
            to.append(f'{start}_copy_{name}(to, r);\n')
        elif kind(of) == 'struct':
            one, other, inner = self.local(), self.local(), self.struct_of(of)
            verb = 'open' if way == 1 and not has_default(field) else 'init'
            to.append(f'{{\n{inner} {one} = {self.got(node, field)};\n{inner}_builder {other} = {start}_{verb}_{name}(to);\ncopy_{inner}(&{one}, &{other}, depth - 1);\n}}\n')
        else:
            self.copy_elements(of['list']['elementType'], self.got(node, field), lambda count: f'{start}_init_{name}(to, {count})', to)

    def copy_value(self, node, field, to):
        of, start, name = field['slot']['type'], type_name(node), escaped(name_of(field))
        what = kind(of)
        if what in ('struct', 'list'):
            self.copy_pointer(node, field, to)
        elif what in ('text', 'data'):
            it = self.local()
            part, end = ('text', '_n') if what == 'text' else ('bytes', '')
            to.append(f'{{\nstruct capnp_{what} {it} = {self.got(node, field)};\n{start}_set_{name}{end}(to, {it}.{part}, {it}.size);\n}}\n')
        elif what == 'anyPointer':
            to.append(f'{start}_copy_{name}(to, r);\n')
        elif what != 'interface':
            to.append(f'{start}_set_{name}(to, {self.got(node, field)});\n')

    def copy_field(self, node, field, to):
        start, name = type_name(node), escaped(name_of(field))
        is_member = field in members(node)
        if 'group' in field:
            group, one, other = type_name(self.schema.nodes[field['group']['typeId']]), self.local(), self.local()
            verb = 'init' if is_member else 'build'
            to.append(f'{{\n{group} {one} = {self.got(node, field)};\n{group}_builder {other} = {start}_{verb}_{name}(to);\ncopy_{group}(&{one}, &{other}, depth - 1);\n}}\n')
            return
        what = kind(field['slot']['type'])
        if what == 'void':
            to.append(f'{start}_set_{name}(to);\n' if is_member else '')
            return
        to.append(f'if ({start}_has_{name}(r)) {{\n' if what in POINTERS else '')
        self.copy_value(node, field, to)
        to.append('}\n' if what in POINTERS else '')

    def copier(self, node):
        body, name = [], type_name(node)
        for field in always(node):
            self.copy_field(node, field, body)
        if members(node):
            self.variants(node, self.copy_field, '', body)
        return (f'\nstatic void copy_{name}(const {name} *r, const {name}_builder *to, int depth) {{\n(void)r;\n(void)to;\nif (depth == 0) return;\n'
                f'{"".join(body)}}}\n')


def row_of(text, name):
    """The row of a struct, by the text of the generated header."""
    return re.search(rf'\b{name}_check\(struct capnp_message \*message\) {{\s*return capnp_check\(message, \w+, [^,]*, (\d+)\);', text)[1]


def program(schema, header, text, roots):
    """The text of the program for messages whose roots are these structs in turn. `text` is that of the generated header."""
    code = Code(schema)
    structs = [node for node in schema.written if 'struct' in node]
    names = [type_name(node) for node in structs]
    declared = ''.join(f'static void show_{it}(const {it} *r, int depth);\nstatic void copy_{it}(const {it} *r, const {it}_builder *to, int depth);\n' for it in names)
    functions = ''.join(code.shower(node) + code.copier(node) for node in structs)
    found = [type_name(schema.find(it)) for it in roots]
    shown = ''.join(f'    case {i}: {{\n        {it} root = {it}_root(message);\n        show_{it}(&root, 64);\n        break;\n    }}\n' for i, it in enumerate(found))
    copied = ''.join(f'    case {i}: {{\n        {it} root = {it}_root(message);\n        {it}_builder to = {it}_init_root(&built);\n        copy_{it}(&root, &to, 64);\n        break;\n    }}\n'
                     for i, it in enumerate(found))
    used = ['show_f32', 'show_f64', *(f'{verb}_{it}' for it in names for verb in ('show', 'copy'))]
    checks = {what: ''.join(f'    case {i}: return {it}_{call};\n' for i, it in enumerate(found)) for what, call in (
        ('checked', 'check(message)'), ('opened', 'open(message, frame, size, room, rooms, used)'), ('refused', 'refused(message)'))}
    return HEAD.format(header=header) + '\n' + declared + functions + MAIN.format(
        count=len(roots), shown=shown, copied=copied, used=''.join(f'    (void){it};\n' for it in used), rows=', '.join(row_of(text, it) for it in found), table=re.search(r'\b(capnp_table_\w+)\[\]', text)[1], **checks)
