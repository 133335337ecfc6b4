#include "regions.h" /* In C: gcc -std=gnu11 -funsigned-char -fwrapv -fno-builtin -ftrivial-auto-var-init=zero -o dijkstra dijkstra.c */

/* Shortest ways in a graph. Each line of the input is one of

       road A B LENGTH     there is a road between A and B, both ways
       way A B             prints the shortest way from A to B

   The graph lies in one region and grows. Each line is worked on in a subregion of it, with all that one
   search needs: what was found out of each town, and the queue. Pointers from there up into the graph are
   `parentptr`; the graph has none down, so the subregion can be deleted behind the line. */

/* ---- from lib.c */

/* Prints a text as it is. */
void print_text(char *text) {
    int i;
    for (i = 0; text[i]; i++) putchar(text[i]);
}

/* Prints a number in decimal digits. */
void print_unsigned(unsigned number) {
    if (number > 9) print_unsigned(number / 10);
    putchar('0' + number % 10);
}

/* Prints a number in decimal digits, behind a minus where it is negative. */
void print_int(int number) {
    if (number < 0) putchar('-');
    print_unsigned(number < 0 ? 0u - number : (unsigned)number);
}

/* How many bytes a text has before its 0. */
int text_length(char *text) {
    int length = 0;
    while (text[length]) length++;
    return length;
}

/* Compares two texts byte by byte: gives 0 where they are the same, else a number below or above 0 as a
   stands before or behind b. */
int compare_texts(char *a, char *b) {
    int i = 0;
    while (a[i] && a[i] == b[i]) i++;
    return a[i] - b[i];
}

/* Gives a copy of a text in a region. */
char *copy_text(region r, char *text) {
    int i, length = text_length(text);
    char *copy = rarrayalloc(r, length + 1, char);
    for (i = 0; i < length; i++) copy[i] = text[i];
    return copy;
}

/* `length` bytes with a 0 behind them, so `bytes` is a text. `room` counts the 0. */
struct buffer {
    int length, room;
    char *sameregion bytes;
};

/* Gives an empty buffer in a region. */
struct buffer *new_buffer(region r) {
    struct buffer *b = ralloc(r, struct buffer);
    b->room = 16;
    b->bytes = rarrayalloc(r, 16, char);
    return b;
}

/* Adds a byte. Where the room is used up the bytes move, in the buffer's region, so `bytes` is read anew
   behind each call. What is left behind is never more than what is kept. */
void add_byte(struct buffer *b, int byte) {
    char *bytes;
    int i;
    if (b->length + 1 == b->room) {
        bytes = rarrayalloc(regionof(b), 2 * b->room, char);
        for (i = 0; i < b->length; i++) bytes[i] = b->bytes[i];
        b->bytes = bytes;
        b->room *= 2;
    }
    b->bytes[b->length] = byte;
    b->length++;
}

/* The standard input, with one byte seen ahead. */
struct input {
    int byte;          /* the next byte, or EOF */
    int line, column;  /* where it stands, each from 1 */
    int failed;        /* whether a number wasn't there, or doesn't fit */
};

/* Gives the standard input, in a region. A program opens it once. */
struct input *open_input(region r) {
    struct input *in = ralloc(r, struct input);
    in->byte = getchar();
    in->line = 1;
    in->column = 1;
    return in;
}

/* Goes on to the next byte, if the end isn't reached. */
void advance(struct input *in) {
    if (in->byte == EOF) return;
    in->column++;
    if (in->byte == '\n') {
        in->line++;
        in->column = 1;
    }
    in->byte = getchar();
}

int is_blank(int byte) {
    return byte == ' ' || byte == '\t' || byte == '\n' || byte == '\r';
}

int is_digit(int byte) {
    return byte >= '0' && byte <= '9';
}

/* Goes on to the next byte that is no blank. */
void skip_blanks(struct input *in) {
    while (is_blank(in->byte)) advance(in);
}

/* Goes on to the next byte that is no blank, or ends the line. */
void skip_spaces(struct input *in) {
    while (is_blank(in->byte) && in->byte != '\n') advance(in);
}

/* Reads what is left of the line, and gives it without its end, in a region; NULL where the input has
   ended. */
char *read_line(region r, struct input *in) {
    struct buffer *line;
    if (in->byte == EOF) return NULL;
    line = new_buffer(r);
    while (in->byte != '\n' && in->byte != EOF) {
        add_byte(line, in->byte);
        advance(in);
    }
    advance(in);
    return line->bytes;
}

/* Reads the next word of the line, up to a blank, and gives it, in a region. Where the line has none it is
   empty. */
char *read_word(region r, struct input *in) {
    struct buffer *word = new_buffer(r);
    skip_spaces(in);
    while (in->byte != EOF && !is_blank(in->byte)) {
        add_byte(word, in->byte);
        advance(in);
    }
    return word->bytes;
}

/* Reads the next number of the line: perhaps a minus, and digits. Where there is no digit, or the number is
   no `int`, it gives 0 and sets `failed`, which nothing sets back. */
int read_number(struct input *in) {
    unsigned most = 2147483647, number = 0, digit;
    int minus;
    skip_spaces(in);
    minus = in->byte == '-';
    if (minus) {
        most++;
        advance(in);
    }
    if (!is_digit(in->byte)) in->failed = 1;
    while (is_digit(in->byte)) {
        digit = in->byte - '0';
        if (number > (most - digit) / 10) in->failed = 1;
        number = number * 10 + digit;
        advance(in);
    }
    if (in->failed) return 0;
    return minus ? 0u - number : number;
}

/* A town, by its name. */
struct entry {
    char *sameregion key;
    struct entry *sameregion next;   /* in the same slot */
    struct road *sameregion roads;
    int known;                       /* whether it has a number */
    int number;                      /* from 0, in the order in which they come */
};

struct table {
    int count, room;
    struct entry *sameregion *sameregion slots;
};

/* Gives an empty table in a region. */
struct table *new_table(region r) {
    struct table *t = ralloc(r, struct table);
    t->room = 16;
    t->slots = rarrayalloc(r, 16, struct entry *sameregion);
    return t;
}

/* The number of the slot, of so many, that a key belongs into. */
int slot_of(char *key, int room) {
    unsigned hash = 0;
    int i;
    for (i = 0; key[i]; i++) hash = hash * 31 + key[i];
    return hash % room;
}

/* Gives the entry of a key; NULL where there is none. */
struct entry *find_entry(struct table *t, char *key) {
    struct entry *e = t->slots[slot_of(key, t->room)];
    while (e && compare_texts(e->key, key) != 0) e = e->next;
    return e;
}

/* Doubles the slots of a table, in its region. */
void grow_table(struct table *t) {
    int i, slot, room = 2 * t->room;
    struct entry *sameregion *slots = rarrayalloc(regionof(t), room, struct entry *sameregion);
    struct entry *e, *next;
    for (i = 0; i < t->room; i++) {
        e = t->slots[i];
        while (e) {
            next = e->next;
            slot = slot_of(e->key, room);
            e->next = slots[slot];
            slots[slot] = e;
            e = next;
        }
    }
    t->slots = slots;
    t->room = room;
}

/* Gives the entry of a key. Where there is none it makes one, in the table's region, with a copy of the key
   and the rest zero and null. */
struct entry *take_entry(struct table *t, char *key) {
    struct entry *sameregion *slots;
    struct entry *e = find_entry(t, key);
    int slot;
    if (e) return e;
    if (t->count == t->room) grow_table(t);
    e = ralloc(regionof(t), struct entry);
    e->key = copy_text(regionof(t), key);
    slots = t->slots;
    slot = slot_of(key, t->room);
    e->next = slots[slot];
    slots[slot] = e;
    t->count++;
    return e;
}

/* ---- the graph */

struct road {
    struct entry *sameregion to;
    int length;
    struct road *sameregion next;
};

struct graph {
    struct table *sameregion towns;
    int roads;                       /* counted both ways */
};

struct graph *new_graph(region r) {
    struct graph *g = ralloc(r, struct graph);
    g->towns = new_table(r);
    return g;
}

/* The town of a name, which is made where it is new. */
struct entry *take_town(struct graph *g, char *name) {
    struct table *towns = g->towns;
    int number = towns->count;
    struct entry *town = take_entry(towns, name);
    if (!town->known) town->number = number;
    town->known = 1;
    return town;
}

/* Both towns lie in one region. */
void add_road(struct graph *g, struct entry *from, struct entry *to, int length) {
    struct road *road = ralloc(regionof(from), struct road);
    road->length = length;
    road->to = to;
    road->next = from->roads;
    from->roads = road;
    g->roads++;
}

/* ---- the queue: a heap in an array. No place has a greater distance than the two at twice its number, and
   one behind that. The places are numbered from 1. */

struct place {
    int distance, number;
};

struct queue {
    int count;
    struct place *sameregion places;
};

/* A queue that has room for so many places. */
struct queue *new_queue(region r, int most) {
    struct queue *q = ralloc(r, struct queue);
    q->places = rarrayalloc(r, most + 1, struct place);
    return q;
}

/* Puts a town into the queue, by its number. */
void put(struct queue *q, int distance, int number) {
    struct place *places = q->places;
    int i;
    q->count++;
    i = q->count;
    while (i > 1 && places[i / 2].distance > distance) {
        places[i] = places[i / 2];
        i = i / 2;
    }
    places[i].distance = distance;
    places[i].number = number;
}

/* Takes the nearest town from the queue, which isn't empty, and gives its number. */
int take(struct queue *q) {
    struct place *places = q->places;
    int i = 1, next = 2, last = q->count, number = places[1].number;
    while (next < last) {
        if (places[next + 1].distance < places[next].distance) next++;
        if (places[last].distance <= places[next].distance) break;
        places[i] = places[next];
        i = next;
        next = 2 * i;
    }
    places[i] = places[last];
    q->count--;
    return number;
}

/* ---- the search */

/* What was found out of a town. */
struct visit {
    struct entry *parentptr town;    /* NULL before it is reached */
    struct visit *sameregion before; /* the one from which it is reached */
    int distance;
    int done;                        /* whether all its roads were followed */
};

/* Follows the roads of a town. */
void follow(struct visit *visits, struct visit *from, struct queue *q) {
    struct entry *town = from->town;
    struct road *road = town->roads;
    struct visit *to;
    int distance;
    from->done = 1;
    while (road) {
        town = road->to;
        to = &visits[town->number];
        distance = from->distance + road->length;
        if (!to->town || distance < to->distance) {
            to->town = town;
            to->before = from;
            to->distance = distance;
            put(q, distance, town->number);
        }
        road = road->next;
    }
}

/* Searches from one town until another is done, in a region below the graph's. Gives what is known of
   that one, or NULL where there is no way. */
struct visit *search(region r, struct graph *g, struct entry *from, struct entry *to) {
    struct table *towns = g->towns;
    struct visit *visits = rarrayalloc(r, towns->count, struct visit), *v;
    struct queue *q = new_queue(r, g->roads + 1);
    v = &visits[from->number];
    v->distance = 0;
    v->town = from;
    put(q, 0, from->number);
    while (q->count > 0) {
        v = &visits[take(q)];
        if (v->town == to) return v;
        if (!v->done) follow(visits, v, q);
    }
    return NULL;
}

/* Prints the towns of a way, from its beginning. */
void print_way(struct visit *v) {
    if (v->before) {
        print_way(v->before);
        print_text(" - ");
    }
    print_text(v->town->key);
}

void show_way(region r, struct graph *g, struct entry *from, struct entry *to) {
    struct visit *v = search(r, g, from, to);
    if (!v) {
        print_text("there is no way\n");
        return;
    }
    print_int(v->distance);
    print_text(": ");
    print_way(v);
    putchar('\n');
}

/* ---- the lines */

void tell(int line, char *what, char *more) {
    print_text("line ");
    print_int(line);
    print_text(": ");
    print_text(what);
    print_text(more);
    putchar('\n');
}

void do_road(region r, struct graph *g, struct input *in) {
    char *a = read_word(r, in), *b = read_word(r, in);
    int length = read_number(in);
    struct entry *from, *to;
    if (in->failed || length < 0 || length > 10000) {
        in->failed = 0;
        tell(in->line, "a length from 0 to 10000 is wanted", "");
        return;
    }
    from = take_town(g, a);
    to = take_town(g, b);
    add_road(g, from, to, length);
    add_road(g, to, from, length);
}

void do_way(region r, struct graph *g, struct input *in) {
    char *a = read_word(r, in), *b = read_word(r, in);
    struct entry *from = find_entry(g->towns, a), *to = find_entry(g->towns, b);
    if (!from) tell(in->line, "there is no road from ", a);
    else if (!to) tell(in->line, "there is no road to ", b);
    else show_way(r, g, from, to);
}

int main(void) deletes {
    region stay = newregion(), round;
    struct graph *g = new_graph(stay);
    struct input *in = open_input(stay);
    char *word;
    skip_blanks(in);
    while (in->byte != EOF) {
        round = newsubregion(stay);
        word = read_word(round, in);
        if (compare_texts(word, "road") == 0) do_road(round, g, in);
        else if (compare_texts(word, "way") == 0) do_way(round, g, in);
        else tell(in->line, "a line begins with road or way, and not with ", word);
        read_line(round, in);
        deleteregion(round);
        skip_blanks(in);
    }
    deleteregion(stay);
    return 0;
}
