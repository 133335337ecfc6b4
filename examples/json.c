#include "regions.h" /* In C: gcc -std=gnu11 -funsigned-char -fwrapv -fno-builtin -ftrivial-auto-var-init=zero -o json json.c */

/* Checks JSON, and prints it anew, two blanks deeper for each level. The input has one value after
   another. What is wrong is told with its line and column, and the next value begins on the line after;
   then the program ends with status 1.

   Each value lies in a region of its own, which is deleted when it was printed or found wrong. So nothing
   has to be freed where reading stops in the middle, at any depth. */

/* ---- from lib.c */

/* Prints a text as it is. */
void print_text(char *text) {
    int i;
    for (i = 0; text[i]; i++) putchar(text[i]);
}

/* Prints a number in decimal digits. */
void print_unsigned(unsigned number) {
    if (number > 9) print_unsigned(number / 10);
    putchar('0' + number % 10);
}

/* Prints a number in decimal digits, behind a minus where it is negative. */
void print_int(int number) {
    if (number < 0) putchar('-');
    print_unsigned(number < 0 ? 0u - number : (unsigned)number);
}

/* Prints a number in hexadecimal digits, at least so many as `least` says. */
void print_hex(unsigned number, int least) {
    if (number > 15 || least > 1) print_hex(number / 16, least - 1);
    putchar("0123456789abcdef"[number % 16]);
}

/* Compares two texts byte by byte: gives 0 where they are the same, else a number below or above 0 as a
   stands before or behind b. */
int compare_texts(char *a, char *b) {
    int i = 0;
    while (a[i] && a[i] == b[i]) i++;
    return a[i] - b[i];
}

/* `length` bytes with a 0 behind them, so `bytes` is a text. `room` counts the 0. */
struct buffer {
    int length, room;
    char *sameregion bytes;
};

/* Gives an empty buffer in a region. */
struct buffer *new_buffer(region r) {
    struct buffer *b = ralloc(r, struct buffer);
    b->room = 16;
    b->bytes = rarrayalloc(r, 16, char);
    return b;
}

/* Adds a byte. Where the room is used up the bytes move, in the buffer's region, so `bytes` is read anew
   behind each call. What is left behind is never more than what is kept. */
void add_byte(struct buffer *b, int byte) {
    char *bytes;
    int i;
    if (b->length + 1 == b->room) {
        bytes = rarrayalloc(regionof(b), 2 * b->room, char);
        for (i = 0; i < b->length; i++) bytes[i] = b->bytes[i];
        b->bytes = bytes;
        b->room *= 2;
    }
    b->bytes[b->length] = byte;
    b->length++;
}

/* Adds the bytes of a text, which isn't the buffer's own. */
void add_text(struct buffer *b, char *text) {
    int i;
    for (i = 0; text[i]; i++) add_byte(b, text[i]);
}

/* The standard input, with one byte seen ahead. */
struct input {
    int byte;          /* the next byte, or EOF */
    int line, column;  /* where it stands, each from 1 */
    int failed;        /* whether the value is wrong, which then was told */
};

/* Gives the standard input, in a region. A program opens it once. */
struct input *open_input(region r) {
    struct input *in = ralloc(r, struct input);
    in->byte = getchar();
    in->line = 1;
    in->column = 1;
    return in;
}

/* Goes on to the next byte, if the end isn't reached. */
void advance(struct input *in) {
    if (in->byte == EOF) return;
    in->column++;
    if (in->byte == '\n') {
        in->line++;
        in->column = 1;
    }
    in->byte = getchar();
}

int is_blank(int byte) {
    return byte == ' ' || byte == '\t' || byte == '\n' || byte == '\r';
}

int is_digit(int byte) {
    return byte >= '0' && byte <= '9';
}

/* Goes on to the next byte that is no blank. */
void skip_blanks(struct input *in) {
    while (is_blank(in->byte)) advance(in);
}

/* ---- values */

struct value {
    int kind;                        /* '{' or '[', else 't' for what is printed as it was read */
    char *sameregion text;           /* of the last kind */
    char *sameregion name;           /* of a member of an object, as it was read */
    struct value *sameregion first;  /* what is in an object or an array */
    struct value *sameregion next;   /* what stands behind this in the same one */
};

/* How deep values may stand in one another. */
int most_deep = 200;

/* Tells what is wrong at a place, if nothing was told of this value before. */
void tell(struct input *in, int line, int column, char *what) {
    if (in->failed) return;
    in->failed = 1;
    print_text("line ");
    print_int(line);
    print_text(", column ");
    print_int(column);
    print_text(": ");
    print_text(what);
}

/* The same of the next byte, which it names. */
void tell_next(struct input *in, char *what) {
    if (in->failed) return;
    tell(in, in->line, in->column, what);
    print_text(", but ");
    if (in->byte == EOF) {
        print_text("the input ends\n");
    } else if (in->byte > ' ' && in->byte < 127) {
        putchar(in->byte);
        print_text(" stands here\n");
    } else {
        print_text("the byte ");
        print_hex(in->byte, 2);
        print_text(" stands here\n");
    }
}

/* ---- reading */

/* Adds the next byte to a text, and goes on. */
void take(struct buffer *text, struct input *in) {
    add_byte(text, in->byte);
    advance(in);
}

int is_hex(int byte) {
    return is_digit(byte) || (byte >= 'a' && byte <= 'f') || (byte >= 'A' && byte <= 'F');
}

/* What stands behind a backslash. */
void read_escape(struct buffer *text, struct input *in) {
    char *letters = "\"\\/bfnrtu";
    int i = 0, letter = in->byte;
    while (letters[i] && letters[i] != letter) i++;
    if (!letters[i]) {
        tell_next(in, "a letter of an escape is wanted");
        return;
    }
    take(text, in);
    if (letter != 'u') return;
    for (i = 0; i < 4; i++) {
        if (!is_hex(in->byte)) {
            tell_next(in, "four hexadecimal digits are wanted");
            return;
        }
        take(text, in);
    }
}

/* A byte above 127 and those that belong to it. The shortest form alone is allowed, and no surrogate. */
void read_wide(struct buffer *text, struct input *in) {
    int first = in->byte, least = 128, most = 191, more = 1;
    if (first < 194 || first > 244) {
        tell_next(in, "a character of UTF-8 is wanted");
        return;
    }
    if (first >= 224) more = 2;
    if (first >= 240) more = 3;
    if (first == 224) least = 160;
    if (first == 237) most = 159;
    if (first == 240) least = 144;
    if (first == 244) most = 143;
    take(text, in);
    while (more > 0) {
        if (in->byte < least || in->byte > most) {
            tell_next(in, "the rest of a character is wanted");
            return;
        }
        take(text, in);
        least = 128;
        most = 191;
        more--;
    }
}

/* A string with its quotes, as it stands. */
char *read_string(region r, struct input *in) {
    struct buffer *text = new_buffer(r);
    if (in->byte != '"') tell_next(in, "a string is wanted");
    if (in->failed) return NULL;
    take(text, in);
    while (!in->failed && in->byte != '"') {
        if (in->byte < ' ') {
            tell_next(in, "the end of the string is wanted");
        } else if (in->byte > 127) {
            read_wide(text, in);
        } else if (in->byte == '\\') {
            take(text, in);
            read_escape(text, in);
        } else {
            take(text, in);
        }
    }
    if (!in->failed) take(text, in);
    return text->bytes;
}

/* One digit or more. */
void read_digits(struct buffer *text, struct input *in) {
    if (!is_digit(in->byte)) tell_next(in, "a digit is wanted");
    while (is_digit(in->byte)) take(text, in);
}

char *read_numeral(region r, struct input *in) {
    struct buffer *text = new_buffer(r);
    if (in->byte == '-') take(text, in);
    if (in->byte == '0') take(text, in);
    else read_digits(text, in);
    if (!in->failed && in->byte == '.') {
        take(text, in);
        read_digits(text, in);
    }
    if (!in->failed && (in->byte == 'e' || in->byte == 'E')) {
        take(text, in);
        if (in->byte == '+' || in->byte == '-') take(text, in);
        read_digits(text, in);
    }
    return text->bytes;
}

int is_letter(int byte) {
    return (byte >= 'a' && byte <= 'z') || (byte >= 'A' && byte <= 'Z');
}

/* One of the three words. */
char *read_literal(region r, struct input *in) {
    struct buffer *text = new_buffer(r);
    int line = in->line, column = in->column;
    if (!is_letter(in->byte)) tell_next(in, "a value is wanted");
    while (is_letter(in->byte)) take(text, in);
    if (compare_texts(text->bytes, "true") == 0) return text->bytes;
    if (compare_texts(text->bytes, "false") == 0) return text->bytes;
    if (compare_texts(text->bytes, "null") == 0) return text->bytes;
    add_text(text, " is no value\n");
    tell(in, line, column, text->bytes);
    return NULL;
}

struct value *read_value(region r, struct input *in, int depth);

/* A name and a colon. */
char *read_name(region r, struct input *in) {
    char *name = read_string(r, in);
    skip_blanks(in);
    if (in->byte != ':') tell_next(in, "a colon is wanted");
    advance(in);
    skip_blanks(in);
    return name;
}

/* An object or an array, of which the first byte is next. */
struct value *read_many(region r, struct input *in, int depth) {
    int end = in->byte + 2;
    struct value *v = ralloc(r, struct value), *last = NULL, *part;
    char *name = NULL;
    if (depth == most_deep) tell(in, in->line, in->column, "this is too deep\n");
    v->kind = in->byte;
    advance(in);
    skip_blanks(in);
    while (!in->failed && in->byte != end) {
        if (last) {
            if (in->byte != ',') tell_next(in, "a comma or the end is wanted");
            advance(in);
            skip_blanks(in);
        }
        if (v->kind == '{' && !in->failed) name = read_name(r, in);
        part = read_value(r, in, depth + 1);
        if (!part) return NULL;
        part->name = name;
        if (last) last->next = part;
        else v->first = part;
        last = part;
        skip_blanks(in);
    }
    advance(in);
    return v;
}

/* The value whose first byte is next, `depth` deep in others. Where it is wrong that was told, and
   it is NULL. */
struct value *read_value(region r, struct input *in, int depth) {
    struct value *v;
    if (in->failed) return NULL;
    if (in->byte == '{' || in->byte == '[') {
        v = read_many(r, in, depth);
    } else {
        v = ralloc(r, struct value);
        v->kind = 't';
        if (in->byte == '"') v->text = read_string(r, in);
        else if (in->byte == '-' || is_digit(in->byte)) v->text = read_numeral(r, in);
        else v->text = read_literal(r, in);
    }
    if (in->failed) return NULL;
    return v;
}

/* ---- printing */

void print_indent(int depth) {
    putchar('\n');
    while (depth > 0) {
        print_text("  ");
        depth--;
    }
}

void print_value(struct value *v, int depth) {
    struct value *part;
    if (v->kind == 't') {
        print_text(v->text);
        return;
    }
    putchar(v->kind);
    part = v->first;
    while (part) {
        print_indent(depth + 1);
        if (v->kind == '{') {
            print_text(part->name);
            print_text(": ");
        }
        print_value(part, depth + 1);
        part = part->next;
        if (part) putchar(',');
    }
    if (v->first) print_indent(depth);
    putchar(v->kind + 2);
}

int main(void) deletes {
    region stay = newregion(), own;
    struct input *in = open_input(stay);
    struct value *v;
    int status = 0;
    skip_blanks(in);
    while (in->byte != EOF) {
        own = newregion();
        v = read_value(own, in, 0);
        if (v) {
            print_value(v, 0);
            putchar('\n');
        } else {
            status = 1;
            in->failed = 0;
            while (in->byte != '\n' && in->byte != EOF) advance(in);
        }
        deleteregion(own);
        skip_blanks(in);
    }
    deleteregion(stay);
    return status;
}
