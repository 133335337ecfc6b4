#include "regions.h" /* In C: gcc -std=gnu11 -funsigned-char -fwrapv -fno-builtin -ftrivial-auto-var-init=zero -o undo undo.c */

/* A line editor that can undo. Each line of the input is one of

       insert N TEXT       puts a line before line N, or behind the last
       append N TEXT       adds to the end of line N
       delete N            takes line N away
       print               prints the lines with their numbers
       undo                takes back the last change that is left
       forget              makes what is there now the beginning

   What a change makes lies in a region below that of the state before it: only the lines up to the one that
   changes are new, and the rest is shared, by pointers up. So all earlier states are there unharmed, and
   an undo is the deletion of one region. */

/* ---- from lib.c */

/* Prints a text as it is. */
void print_text(char *text) {
    int i;
    for (i = 0; text[i]; i++) putchar(text[i]);
}

/* Prints a number in decimal digits. */
void print_unsigned(unsigned number) {
    if (number > 9) print_unsigned(number / 10);
    putchar('0' + number % 10);
}

/* Prints a number in decimal digits, behind a minus where it is negative. */
void print_int(int number) {
    if (number < 0) putchar('-');
    print_unsigned(number < 0 ? 0u - number : (unsigned)number);
}

/* How many bytes a text has before its 0. */
int text_length(char *text) {
    int length = 0;
    while (text[length]) length++;
    return length;
}

/* Compares two texts byte by byte: gives 0 where they are the same, else a number below or above 0 as a
   stands before or behind b. */
int compare_texts(char *a, char *b) {
    int i = 0;
    while (a[i] && a[i] == b[i]) i++;
    return a[i] - b[i];
}

/* Gives a copy of a text in a region. */
char *copy_text(region r, char *text) {
    int i, length = text_length(text);
    char *copy = rarrayalloc(r, length + 1, char);
    for (i = 0; i < length; i++) copy[i] = text[i];
    return copy;
}

/* Gives a text of a and b behind it, in a region. */
char *join_texts(region r, char *a, char *b) {
    int i, length = text_length(a), more = text_length(b);
    char *joined = rarrayalloc(r, length + more + 1, char);
    for (i = 0; i < length; i++) joined[i] = a[i];
    for (i = 0; i < more; i++) joined[length + i] = b[i];
    return joined;
}

/* `length` bytes with a 0 behind them, so `bytes` is a text. `room` counts the 0. */
struct buffer {
    int length, room;
    char *sameregion bytes;
};

/* Gives an empty buffer in a region. */
struct buffer *new_buffer(region r) {
    struct buffer *b = ralloc(r, struct buffer);
    b->room = 16;
    b->bytes = rarrayalloc(r, 16, char);
    return b;
}

/* Adds a byte. Where the room is used up the bytes move, in the buffer's region, so `bytes` is read anew
   behind each call. What is left behind is never more than what is kept. */
void add_byte(struct buffer *b, int byte) {
    char *bytes;
    int i;
    if (b->length + 1 == b->room) {
        bytes = rarrayalloc(regionof(b), 2 * b->room, char);
        for (i = 0; i < b->length; i++) bytes[i] = b->bytes[i];
        b->bytes = bytes;
        b->room *= 2;
    }
    b->bytes[b->length] = byte;
    b->length++;
}

/* The standard input, with one byte seen ahead. */
struct input {
    int byte;          /* the next byte, or EOF */
    int line, column;  /* where it stands, each from 1 */
    int failed;        /* whether a number wasn't there, or doesn't fit */
};

/* Gives the standard input, in a region. A program opens it once. */
struct input *open_input(region r) {
    struct input *in = ralloc(r, struct input);
    in->byte = getchar();
    in->line = 1;
    in->column = 1;
    return in;
}

/* Goes on to the next byte, if the end isn't reached. */
void advance(struct input *in) {
    if (in->byte == EOF) return;
    in->column++;
    if (in->byte == '\n') {
        in->line++;
        in->column = 1;
    }
    in->byte = getchar();
}

int is_blank(int byte) {
    return byte == ' ' || byte == '\t' || byte == '\n' || byte == '\r';
}

int is_digit(int byte) {
    return byte >= '0' && byte <= '9';
}

/* Goes on to the next byte that is no blank. */
void skip_blanks(struct input *in) {
    while (is_blank(in->byte)) advance(in);
}

/* Goes on to the next byte that is no blank, or ends the line. */
void skip_spaces(struct input *in) {
    while (is_blank(in->byte) && in->byte != '\n') advance(in);
}

/* Reads what is left of the line, and gives it without its end, in a region; NULL where the input has
   ended. */
char *read_line(region r, struct input *in) {
    struct buffer *line;
    if (in->byte == EOF) return NULL;
    line = new_buffer(r);
    while (in->byte != '\n' && in->byte != EOF) {
        add_byte(line, in->byte);
        advance(in);
    }
    advance(in);
    return line->bytes;
}

/* Reads the next word of the line, up to a blank, and gives it, in a region. Where the line has none it is
   empty. */
char *read_word(region r, struct input *in) {
    struct buffer *word = new_buffer(r);
    skip_spaces(in);
    while (in->byte != EOF && !is_blank(in->byte)) {
        add_byte(word, in->byte);
        advance(in);
    }
    return word->bytes;
}

/* Reads the next number of the line: perhaps a minus, and digits. Where there is no digit, or the number is
   no `int`, it gives 0 and sets `failed`, which nothing sets back. */
int read_number(struct input *in) {
    unsigned most = 2147483647, number = 0, digit;
    int minus;
    skip_spaces(in);
    minus = in->byte == '-';
    if (minus) {
        most++;
        advance(in);
    }
    if (!is_digit(in->byte)) in->failed = 1;
    while (is_digit(in->byte)) {
        digit = in->byte - '0';
        if (number > (most - digit) / 10) in->failed = 1;
        number = number * 10 + digit;
        advance(in);
    }
    if (in->failed) return 0;
    return minus ? 0u - number : number;
}

/* ---- states */

struct line {
    char *parentptr text;
    struct line *parentptr next;
};

/* What the text is after a change. Its region is the change's. */
struct state {
    int count;                      /* of its lines */
    struct line *parentptr first;
    struct state *parentptr before; /* NULL in the first */
};

struct line *new_line(region r, char *text, struct line *next) {
    struct line *l = ralloc(r, struct line);
    l->text = text;
    l->next = next;
    return l;
}

/* The line that has a number, counted from 0; NULL behind the last. */
struct line *line_at(struct state *s, int number) {
    struct line *l = s->first;
    while (l && number > 0) {
        l = l->next;
        number--;
    }
    return l;
}

/* New lines in a region for the first `count` of a list, with `rest` behind them. */
struct line *copy_front(region r, struct line *from, int count, struct line *rest) {
    struct line *first = NULL, *last = NULL, *l;
    while (count > 0) {
        l = new_line(r, from->text, NULL);
        if (last) last->next = l;
        else first = l;
        last = l;
        from = from->next;
        count--;
    }
    if (!last) return rest;
    last->next = rest;
    return first;
}

/* Makes the state after a change, in a region below the one before, and gives it. Behind the first `kept`
   lines it has these ones. */
struct state *change(region r, struct state *before, int count, int kept, struct line *rest) {
    struct state *s = ralloc(r, struct state);
    s->count = count;
    s->before = before;
    s->first = copy_front(r, before->first, kept, rest);
    return s;
}

struct state *insert(struct state *s, int number, char *text) {
    region r = newsubregion(regionof(s));
    struct line *l = new_line(r, copy_text(r, text), line_at(s, number));
    return change(r, s, s->count + 1, number, l);
}

struct state *append(struct state *s, int number, char *text) {
    region r = newsubregion(regionof(s));
    struct line *old = line_at(s, number);
    struct line *l = new_line(r, join_texts(r, old->text, text), old->next);
    return change(r, s, s->count, number, l);
}

struct state *cut(struct state *s, int number) {
    region r = newsubregion(regionof(s));
    return change(r, s, s->count - 1, number, line_at(s, number + 1));
}

/* Deletes a state's region, and gives the state before. */
struct state *undo(struct state *s) deletes {
    struct state *before = s->before;
    deleteregion(regionof(s));
    return before;
}

/* Copies a state, with the texts of all its lines, into a region that isn't below another, and deletes it
   and all before it, the last made first. */
struct state *forget(struct state *s) deletes {
    region r = newregion();
    struct state *only = ralloc(r, struct state);
    struct line *l = s->first, *last = NULL, *copy;
    only->count = s->count;
    while (l) {
        copy = new_line(r, copy_text(r, l->text), NULL);
        if (last) last->next = copy;
        else only->first = copy;
        last = copy;
        l = l->next;
    }
    while (s) s = undo(s);
    return only;
}

/* ---- the lines of the input */

void print_state(struct state *s) {
    struct line *l = s->first;
    int number = 1;
    while (l) {
        print_int(number);
        print_text(": ");
        print_text(l->text);
        putchar('\n');
        number++;
        l = l->next;
    }
}

void tell(int line, char *what) {
    print_text("line ");
    print_int(line);
    print_text(": ");
    print_text(what);
    putchar('\n');
}

/* A line of the input, cut into its parts. */
struct command {
    int line;
    char *sameregion word;
    int number;                     /* 0 where there is none */
    char *sameregion text;          /* what stands behind it and one blank */
};

struct command *read_command(region r, struct input *in) {
    struct command *c = ralloc(r, struct command);
    c->line = in->line;
    c->word = read_word(r, in);
    skip_spaces(in);
    if (is_digit(in->byte)) c->number = read_number(in);
    in->failed = 0;
    if (in->byte == ' ') advance(in);
    if (in->byte == EOF) c->text = copy_text(r, "");
    else c->text = read_line(r, in);
    return c;
}

/* Whether a command has this word. */
int is_word(struct command *c, char *word) {
    return compare_texts(c->word, word) == 0;
}

/* Does a command, and gives the state behind it. */
struct state *execute(struct command *c, struct state *s) deletes {
    int number = c->number;
    if (is_word(c, "insert") && number >= 1 && number <= s->count + 1) return insert(s, number - 1, c->text);
    if (is_word(c, "append") && number >= 1 && number <= s->count) return append(s, number - 1, c->text);
    if (is_word(c, "delete") && number >= 1 && number <= s->count) return cut(s, number - 1);
    if (is_word(c, "undo") && s->before) return undo(s);
    if (is_word(c, "forget")) return forget(s);
    if (is_word(c, "print")) print_state(s);
    else if (is_word(c, "undo")) tell(c->line, "there is nothing to undo");
    else if (number > s->count) tell(c->line, "there is no such line");
    else tell(c->line, "this is no command");
    return s;
}

int main(void) deletes {
    region stay = newregion(), scratch;
    struct input *in = open_input(stay);
    struct state *s = ralloc(newregion(), struct state);
    skip_blanks(in);
    while (in->byte != EOF) {
        scratch = newregion();
        s = execute(read_command(scratch, in), s);
        deleteregion(scratch);
        skip_blanks(in);
    }
    while (s) s = undo(s);
    deleteregion(stay);
    return 0;
}
