#include "regions.h" /* In C: gcc -std=gnu11 -funsigned-char -fwrapv -fno-builtin -ftrivial-auto-var-init=zero -o lib lib.c */

/* Functions to copy from: printing, texts, reading, a buffer that grows, and a hash table. A program of RC
   is one file, so what it needs of these is copied into it, as json.c, lisp.c, dijkstra.c, undo.c and
   lru.c do. The structs may get more fields there.

   A text is a pointer to bytes with a 0 behind them. No pointer that is handed to these functions may be
   NULL. What they make lies in the region that they are given, or where what they are given lies, and
   goes with it. `main` uses all of them, on lib.in. */

/* ---- printing */

/* Prints a text as it is. */
void print_text(char *text) {
    int i;
    for (i = 0; text[i]; i++) putchar(text[i]);
}

/* Prints a number in decimal digits. */
void print_unsigned(unsigned number) {
    if (number > 9) print_unsigned(number / 10);
    putchar('0' + number % 10);
}

/* Prints a number in decimal digits, behind a minus where it is negative. */
void print_int(int number) {
    if (number < 0) putchar('-');
    print_unsigned(number < 0 ? 0u - number : (unsigned)number);
}

/* Prints a number in hexadecimal digits, at least so many as `least` says. */
void print_hex(unsigned number, int least) {
    if (number > 15 || least > 1) print_hex(number / 16, least - 1);
    putchar("0123456789abcdef"[number % 16]);
}

/* ---- texts */

/* How many bytes a text has before its 0. */
int text_length(char *text) {
    int length = 0;
    while (text[length]) length++;
    return length;
}

/* Compares two texts byte by byte: gives 0 where they are the same, else a number below or above 0 as a
   stands before or behind b. */
int compare_texts(char *a, char *b) {
    int i = 0;
    while (a[i] && a[i] == b[i]) i++;
    return a[i] - b[i];
}

/* Gives a copy of a text in a region. */
char *copy_text(region r, char *text) {
    int i, length = text_length(text);
    char *copy = rarrayalloc(r, length + 1, char);
    for (i = 0; i < length; i++) copy[i] = text[i];
    return copy;
}

/* Gives a text of a and b behind it, in a region. */
char *join_texts(region r, char *a, char *b) {
    int i, length = text_length(a), more = text_length(b);
    char *joined = rarrayalloc(r, length + more + 1, char);
    for (i = 0; i < length; i++) joined[i] = a[i];
    for (i = 0; i < more; i++) joined[length + i] = b[i];
    return joined;
}

/* ---- a buffer that grows */

/* `length` bytes with a 0 behind them, so `bytes` is a text. `room` counts the 0. */
struct buffer {
    int length, room;
    char *sameregion bytes;
};

/* Gives an empty buffer in a region. */
struct buffer *new_buffer(region r) {
    struct buffer *b = ralloc(r, struct buffer);
    b->room = 16;
    b->bytes = rarrayalloc(r, 16, char);
    return b;
}

/* Adds a byte. Where the room is used up the bytes move, in the buffer's region, so `bytes` is read anew
   behind each call. What is left behind is never more than what is kept. */
void add_byte(struct buffer *b, int byte) {
    char *bytes;
    int i;
    if (b->length + 1 == b->room) {
        bytes = rarrayalloc(regionof(b), 2 * b->room, char);
        for (i = 0; i < b->length; i++) bytes[i] = b->bytes[i];
        b->bytes = bytes;
        b->room *= 2;
    }
    b->bytes[b->length] = byte;
    b->length++;
}

/* Adds the bytes of a text, which isn't the buffer's own. */
void add_text(struct buffer *b, char *text) {
    int i;
    for (i = 0; text[i]; i++) add_byte(b, text[i]);
}

/* ---- reading */

/* The standard input, with one byte seen ahead. */
struct input {
    int byte;          /* the next byte, or EOF */
    int line, column;  /* where it stands, each from 1 */
    int failed;        /* whether a number wasn't there, or doesn't fit */
};

/* Gives the standard input, in a region. A program opens it once. */
struct input *open_input(region r) {
    struct input *in = ralloc(r, struct input);
    in->byte = getchar();
    in->line = 1;
    in->column = 1;
    return in;
}

/* Goes on to the next byte, if the end isn't reached. */
void advance(struct input *in) {
    if (in->byte == EOF) return;
    in->column++;
    if (in->byte == '\n') {
        in->line++;
        in->column = 1;
    }
    in->byte = getchar();
}

int is_blank(int byte) {
    return byte == ' ' || byte == '\t' || byte == '\n' || byte == '\r';
}

int is_digit(int byte) {
    return byte >= '0' && byte <= '9';
}

/* Goes on to the next byte that is no blank. */
void skip_blanks(struct input *in) {
    while (is_blank(in->byte)) advance(in);
}

/* Goes on to the next byte that is no blank, or ends the line. */
void skip_spaces(struct input *in) {
    while (is_blank(in->byte) && in->byte != '\n') advance(in);
}

/* Reads what is left of the line, and gives it without its end, in a region; NULL where the input has
   ended. */
char *read_line(region r, struct input *in) {
    struct buffer *line;
    if (in->byte == EOF) return NULL;
    line = new_buffer(r);
    while (in->byte != '\n' && in->byte != EOF) {
        add_byte(line, in->byte);
        advance(in);
    }
    advance(in);
    return line->bytes;
}

/* Reads the next word of the line, up to a blank, and gives it, in a region. Where the line has none it is
   empty. */
char *read_word(region r, struct input *in) {
    struct buffer *word = new_buffer(r);
    skip_spaces(in);
    while (in->byte != EOF && !is_blank(in->byte)) {
        add_byte(word, in->byte);
        advance(in);
    }
    return word->bytes;
}

/* Reads the next number of the line: perhaps a minus, and digits. Where there is no digit, or the number is
   no `int`, it gives 0 and sets `failed`, which nothing sets back. */
int read_number(struct input *in) {
    unsigned most = 2147483647, number = 0, digit;
    int minus;
    skip_spaces(in);
    minus = in->byte == '-';
    if (minus) {
        most++;
        advance(in);
    }
    if (!is_digit(in->byte)) in->failed = 1;
    while (is_digit(in->byte)) {
        digit = in->byte - '0';
        if (number > (most - digit) / 10) in->failed = 1;
        number = number * 10 + digit;
        advance(in);
    }
    if (in->failed) return 0;
    return minus ? 0u - number : number;
}

/* ---- a hash table, from texts to what an entry holds */

struct entry {
    char *sameregion key;
    struct entry *sameregion next;  /* in the same slot */
    int value;                      /* these functions don't use it */
};

struct table {
    int count, room;
    struct entry *sameregion *sameregion slots;
};

/* Gives an empty table in a region. */
struct table *new_table(region r) {
    struct table *t = ralloc(r, struct table);
    t->room = 16;
    t->slots = rarrayalloc(r, 16, struct entry *sameregion);
    return t;
}

/* The number of the slot, of so many, that a key belongs into. */
int slot_of(char *key, int room) {
    unsigned hash = 0;
    int i;
    for (i = 0; key[i]; i++) hash = hash * 31 + key[i];
    return hash % room;
}

/* Gives the entry of a key; NULL where there is none. */
struct entry *find_entry(struct table *t, char *key) {
    struct entry *e = t->slots[slot_of(key, t->room)];
    while (e && compare_texts(e->key, key) != 0) e = e->next;
    return e;
}

/* Doubles the slots of a table, in its region. */
void grow_table(struct table *t) {
    int i, slot, room = 2 * t->room;
    struct entry *sameregion *slots = rarrayalloc(regionof(t), room, struct entry *sameregion);
    struct entry *e, *next;
    for (i = 0; i < t->room; i++) {
        e = t->slots[i];
        while (e) {
            next = e->next;
            slot = slot_of(e->key, room);
            e->next = slots[slot];
            slots[slot] = e;
            e = next;
        }
    }
    t->slots = slots;
    t->room = room;
}

/* Gives the entry of a key. Where there is none it makes one, in the table's region, with a copy of the key
   and the rest zero and null. */
struct entry *take_entry(struct table *t, char *key) {
    struct entry *sameregion *slots;
    struct entry *e = find_entry(t, key);
    int slot;
    if (e) return e;
    if (t->count == t->room) grow_table(t);
    e = ralloc(regionof(t), struct entry);
    e->key = copy_text(regionof(t), key);
    slots = t->slots;
    slot = slot_of(key, t->room);
    e->next = slots[slot];
    slots[slot] = e;
    t->count++;
    return e;
}

/* Takes the entry of a key out of a table, if there is one. Its memory goes with the region. */
void remove_entry(struct table *t, char *key) {
    struct entry *sameregion *slots = t->slots;
    struct entry *e, *before = NULL;
    int slot = slot_of(key, t->room);
    e = slots[slot];
    while (e && compare_texts(e->key, key) != 0) {
        before = e;
        e = e->next;
    }
    if (!e) return;
    if (before) before->next = e->next;
    else slots[slot] = e->next;
    t->count--;
}

/* ---- each of them is used once */

/* Numbers and texts. */
void show_prints(region r) {
    print_int(-2147483647 - 1);
    putchar(' ');
    print_unsigned(4294967295u);
    putchar(' ');
    print_hex(48879, 8);
    putchar(' ');
    print_text(join_texts(r, "reg", copy_text(r, "ion")));
    putchar(' ');
    print_int(compare_texts("region", "regions") < 0);
    putchar('\n');
}

/* A line, and numbers up to one that is none. */
void show_reading(region r, struct input *in) {
    int number, sum = 0;
    print_text("line: ");
    print_text(read_line(r, in));
    number = read_number(in);
    while (!in->failed) {
        sum += number;
        skip_blanks(in);
        number = read_number(in);
    }
    print_text(", sum: ");
    print_int(sum);
    print_text(", line ");
    print_int(in->line);
    print_text(", column ");
    print_int(in->column);
    putchar('\n');
}

/* How often each word that is left stands in the input, each told where it stands first. */
void show_table(region r, struct input *in) {
    struct table *words = new_table(r);
    struct buffer *told = new_buffer(r);
    char *word;
    skip_blanks(in);
    while (in->byte != EOF) {
        word = read_word(r, in);
        if (!find_entry(words, word)) {
            add_text(told, word);
            add_byte(told, ' ');
        }
        take_entry(words, word)->value++;
        skip_blanks(in);
    }
    remove_entry(words, "the");
    print_text(told->bytes);
    print_int(words->count);
    putchar('\n');
}

int main(void) deletes {
    region r = newregion();
    struct input *in = open_input(r);
    show_prints(r);
    show_reading(r, in);
    show_table(r, in);
    deleteregion(r);
    return 0;
}
