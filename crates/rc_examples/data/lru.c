#include "regions.h" /* In C: gcc -std=gnu11 -funsigned-char -fwrapv -fno-builtin -ftrivial-auto-var-init=zero -o lru lru.c */

/* A cache that keeps what was used last. The input begins with how many entries it holds; then each line is
   one of

       put KEY VALUE       sets the value of a key, and lets the entry go that was used longest ago, if
                           there are too many
       get KEY             prints the value of a key, which is then the one used last
       show                prints all entries, from the one that was used last

   In RC no entry is freed by itself. So the cache lies in a region, its generation, and where as many
   entries were let go as it holds, those that are left are copied into a new one, and the old one is deleted.
   So at most one entry is copied for each that is let go, and there are never more than three times as
   many as the cache holds. */

/* ---- from lib.c */

/* Prints a text as it is. */
void print_text(char *text) {
    int i;
    for (i = 0; text[i]; i++) putchar(text[i]);
}

/* Prints a number in decimal digits. */
void print_unsigned(unsigned number) {
    if (number > 9) print_unsigned(number / 10);
    putchar('0' + number % 10);
}

/* Prints a number in decimal digits, behind a minus where it is negative. */
void print_int(int number) {
    if (number < 0) putchar('-');
    print_unsigned(number < 0 ? 0u - number : (unsigned)number);
}

/* How many bytes a text has before its 0. */
int text_length(char *text) {
    int length = 0;
    while (text[length]) length++;
    return length;
}

/* Compares two texts byte by byte: gives 0 where they are the same, else a number below or above 0 as a
   stands before or behind b. */
int compare_texts(char *a, char *b) {
    int i = 0;
    while (a[i] && a[i] == b[i]) i++;
    return a[i] - b[i];
}

/* Gives a copy of a text in a region. */
char *copy_text(region r, char *text) {
    int i, length = text_length(text);
    char *copy = rarrayalloc(r, length + 1, char);
    for (i = 0; i < length; i++) copy[i] = text[i];
    return copy;
}

/* `length` bytes with a 0 behind them, so `bytes` is a text. `room` counts the 0. */
struct buffer {
    int length, room;
    char *sameregion bytes;
};

/* Gives an empty buffer in a region. */
struct buffer *new_buffer(region r) {
    struct buffer *b = ralloc(r, struct buffer);
    b->room = 16;
    b->bytes = rarrayalloc(r, 16, char);
    return b;
}

/* Adds a byte. Where the room is used up the bytes move, in the buffer's region, so `bytes` is read anew
   behind each call. What is left behind is never more than what is kept. */
void add_byte(struct buffer *b, int byte) {
    char *bytes;
    int i;
    if (b->length + 1 == b->room) {
        bytes = rarrayalloc(regionof(b), 2 * b->room, char);
        for (i = 0; i < b->length; i++) bytes[i] = b->bytes[i];
        b->bytes = bytes;
        b->room *= 2;
    }
    b->bytes[b->length] = byte;
    b->length++;
}

/* The standard input, with one byte seen ahead. */
struct input {
    int byte;          /* the next byte, or EOF */
    int line, column;  /* where it stands, each from 1 */
    int failed;        /* whether a number wasn't there, or doesn't fit */
};

/* Gives the standard input, in a region. A program opens it once. */
struct input *open_input(region r) {
    struct input *in = ralloc(r, struct input);
    in->byte = getchar();
    in->line = 1;
    in->column = 1;
    return in;
}

/* Goes on to the next byte, if the end isn't reached. */
void advance(struct input *in) {
    if (in->byte == EOF) return;
    in->column++;
    if (in->byte == '\n') {
        in->line++;
        in->column = 1;
    }
    in->byte = getchar();
}

int is_blank(int byte) {
    return byte == ' ' || byte == '\t' || byte == '\n' || byte == '\r';
}

int is_digit(int byte) {
    return byte >= '0' && byte <= '9';
}

/* Goes on to the next byte that is no blank. */
void skip_blanks(struct input *in) {
    while (is_blank(in->byte)) advance(in);
}

/* Goes on to the next byte that is no blank, or ends the line. */
void skip_spaces(struct input *in) {
    while (is_blank(in->byte) && in->byte != '\n') advance(in);
}

/* Reads what is left of the line, and gives it without its end, in a region; NULL where the input has
   ended. */
char *read_line(region r, struct input *in) {
    struct buffer *line;
    if (in->byte == EOF) return NULL;
    line = new_buffer(r);
    while (in->byte != '\n' && in->byte != EOF) {
        add_byte(line, in->byte);
        advance(in);
    }
    advance(in);
    return line->bytes;
}

/* Reads the next word of the line, up to a blank, and gives it, in a region. Where the line has none it is
   empty. */
char *read_word(region r, struct input *in) {
    struct buffer *word = new_buffer(r);
    skip_spaces(in);
    while (in->byte != EOF && !is_blank(in->byte)) {
        add_byte(word, in->byte);
        advance(in);
    }
    return word->bytes;
}

/* Reads the next number of the line: perhaps a minus, and digits. Where there is no digit, or the number is
   no `int`, it gives 0 and sets `failed`, which nothing sets back. */
int read_number(struct input *in) {
    unsigned most = 2147483647, number = 0, digit;
    int minus;
    skip_spaces(in);
    minus = in->byte == '-';
    if (minus) {
        most++;
        advance(in);
    }
    if (!is_digit(in->byte)) in->failed = 1;
    while (is_digit(in->byte)) {
        digit = in->byte - '0';
        if (number > (most - digit) / 10) in->failed = 1;
        number = number * 10 + digit;
        advance(in);
    }
    if (in->failed) return 0;
    return minus ? 0u - number : number;
}

/* What is kept of a key. Entries stand in the order in which they were used. */
struct entry {
    char *sameregion key;
    struct entry *sameregion next;   /* in the same slot */
    struct entry *sameregion older;
    struct entry *sameregion newer;
    int value;
};

struct table {
    int count, room;
    struct entry *sameregion *sameregion slots;
};

/* Gives an empty table in a region. */
struct table *new_table(region r) {
    struct table *t = ralloc(r, struct table);
    t->room = 16;
    t->slots = rarrayalloc(r, 16, struct entry *sameregion);
    return t;
}

/* The number of the slot, of so many, that a key belongs into. */
int slot_of(char *key, int room) {
    unsigned hash = 0;
    int i;
    for (i = 0; key[i]; i++) hash = hash * 31 + key[i];
    return hash % room;
}

/* Gives the entry of a key; NULL where there is none. */
struct entry *find_entry(struct table *t, char *key) {
    struct entry *e = t->slots[slot_of(key, t->room)];
    while (e && compare_texts(e->key, key) != 0) e = e->next;
    return e;
}

/* Doubles the slots of a table, in its region. */
void grow_table(struct table *t) {
    int i, slot, room = 2 * t->room;
    struct entry *sameregion *slots = rarrayalloc(regionof(t), room, struct entry *sameregion);
    struct entry *e, *next;
    for (i = 0; i < t->room; i++) {
        e = t->slots[i];
        while (e) {
            next = e->next;
            slot = slot_of(e->key, room);
            e->next = slots[slot];
            slots[slot] = e;
            e = next;
        }
    }
    t->slots = slots;
    t->room = room;
}

/* Gives the entry of a key. Where there is none it makes one, in the table's region, with a copy of the key
   and the rest zero and null. */
struct entry *take_entry(struct table *t, char *key) {
    struct entry *sameregion *slots;
    struct entry *e = find_entry(t, key);
    int slot;
    if (e) return e;
    if (t->count == t->room) grow_table(t);
    e = ralloc(regionof(t), struct entry);
    e->key = copy_text(regionof(t), key);
    slots = t->slots;
    slot = slot_of(key, t->room);
    e->next = slots[slot];
    slots[slot] = e;
    t->count++;
    return e;
}

/* Takes the entry of a key out of a table, if there is one. Its memory goes with the region. */
void remove_entry(struct table *t, char *key) {
    struct entry *sameregion *slots = t->slots;
    struct entry *e, *before = NULL;
    int slot = slot_of(key, t->room);
    e = slots[slot];
    while (e && compare_texts(e->key, key) != 0) {
        before = e;
        e = e->next;
    }
    if (!e) return;
    if (before) before->next = e->next;
    else slots[slot] = e->next;
    t->count--;
}

/* ---- the cache */

/* A generation. All of it lies in one region. */
struct cache {
    int most;                        /* how many entries it holds */
    int gone;                        /* how many were let go in this generation */
    int generation;                  /* its number, from 1 */
    struct table *sameregion table;
    struct entry *sameregion newest;
    struct entry *sameregion oldest;
};

struct cache *new_cache(region r, int most, int generation) {
    struct cache *c = ralloc(r, struct cache);
    c->most = most;
    c->generation = generation;
    c->table = new_table(r);
    return c;
}

/* Takes an entry of the cache out of the order. */
void unlink(struct cache *c, struct entry *e) {
    struct entry *older = e->older, *newer = e->newer;
    if (older) older->newer = newer;
    else c->oldest = newer;
    if (newer) newer->older = older;
    else c->newest = older;
}

/* Makes an entry of the cache the newest, which isn't in the order. */
void link(struct cache *c, struct entry *e) {
    struct entry *newest = c->newest;
    e->older = newest;
    e->newer = NULL;
    if (newest) newest->newer = e;
    else c->oldest = e;
    c->newest = e;
}

/* Lets the entry go that was used longest ago. */
void let_go(struct cache *c) {
    struct entry *oldest = c->oldest;
    unlink(c, oldest);
    remove_entry(c->table, oldest->key);
    c->gone++;
}

/* Sets the value of a key, whose entry is the newest then. */
void put(struct cache *c, char *key, int value) {
    struct entry *e = find_entry(c->table, key);
    if (e) unlink(c, e);
    else e = take_entry(c->table, key);
    e->value = value;
    link(c, e);
}

/* Copies the entries into a new generation, from the oldest on, and deletes the old one. */
struct cache *renew(struct cache *old) deletes {
    struct cache *c = new_cache(newregion(), old->most, old->generation + 1);
    struct entry *e = old->oldest;
    while (e) {
        put(c, e->key, e->value);
        e = e->newer;
    }
    deleteregion(regionof(old));
    return c;
}

/* ---- the lines */

void tell(int line, char *what) {
    print_text("line ");
    print_int(line);
    print_text(": ");
    print_text(what);
    putchar('\n');
}

void print_entry(struct entry *e) {
    print_text(e->key);
    putchar(' ');
    print_int(e->value);
    putchar('\n');
}

void show(struct cache *c) {
    struct entry *e = c->newest;
    print_text("generation ");
    print_int(c->generation);
    print_text(", entries ");
    print_int(c->table->count);
    putchar('\n');
    while (e) {
        print_text("  ");
        print_entry(e);
        e = e->older;
    }
}

void get(struct cache *c, char *key) {
    struct entry *e = find_entry(c->table, key);
    if (!e) {
        print_text(key);
        print_text(" isn't here\n");
        return;
    }
    print_entry(e);
    unlink(c, e);
    link(c, e);
}

/* Does a line. What is read of it lies in `scratch`. */
void execute(region scratch, struct cache *c, struct input *in) {
    char *word = read_word(scratch, in), *key = read_word(scratch, in);
    int value;
    if (compare_texts(word, "show") == 0) {
        show(c);
    } else if (compare_texts(word, "get") == 0) {
        get(c, key);
    } else if (compare_texts(word, "put") == 0) {
        value = read_number(in);
        if (in->failed) tell(in->line, "a number is wanted behind the key");
        else put(c, key, value);
        in->failed = 0;
    } else {
        tell(in->line, "a line begins with put, get or show");
    }
    if (c->table->count > c->most) let_go(c);
    read_line(scratch, in);
}

int main(void) deletes {
    region stay = newregion(), scratch;
    struct input *in = open_input(stay);
    struct cache *c;
    int most = read_number(in);
    if (in->failed || most < 1) {
        tell(in->line, "a number of entries is wanted, 1 or more");
        return 1;
    }
    c = new_cache(newregion(), most, 1);
    skip_blanks(in);
    while (in->byte != EOF) {
        scratch = newregion();
        execute(scratch, c, in);
        deleteregion(scratch);
        if (c->gone >= most) c = renew(c);
        skip_blanks(in);
    }
    deleteregion(regionof(c));
    deleteregion(stay);
    return 0;
}
