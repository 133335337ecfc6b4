#include "regions.h" /* In C: gcc -std=gnu11 -funsigned-char -fwrapv -fno-builtin -ftrivial-auto-var-init=zero -o lisp lisp.c */

/* A small Lisp: reads a form, evaluates it, prints its value, and so on to the end of the input. There are
   numbers (modulo 2 to the 32), symbols, lists and functions; the forms quote, if, let, lambda, define;
   and the functions + - * / < = cons car cdr pair? eq?. The empty list is false. Only define changes
   anything.

   Each form is read and evaluated in a region of its own, which is deleted behind it. What a define keeps
   is copied into the permanent region, which is region 0: symbols, and what is defined. A pointer to
   something permanent is `traditional`. Any other leads into the form's region or into region 0, which
   is above it, so it is `parentptr`. */

/* ---- from lib.c */

/* Prints a text as it is. */
void print_text(char *text) {
    int i;
    for (i = 0; text[i]; i++) putchar(text[i]);
}

/* Prints a number in decimal digits. */
void print_unsigned(unsigned number) {
    if (number > 9) print_unsigned(number / 10);
    putchar('0' + number % 10);
}

/* Prints a number in decimal digits, behind a minus where it is negative. */
void print_int(int number) {
    if (number < 0) putchar('-');
    print_unsigned(number < 0 ? 0u - number : (unsigned)number);
}

/* How many bytes a text has before its 0. */
int text_length(char *text) {
    int length = 0;
    while (text[length]) length++;
    return length;
}

/* Compares two texts byte by byte: gives 0 where they are the same, else a number below or above 0 as a
   stands before or behind b. */
int compare_texts(char *a, char *b) {
    int i = 0;
    while (a[i] && a[i] == b[i]) i++;
    return a[i] - b[i];
}

/* Gives a copy of a text in a region. */
char *copy_text(region r, char *text) {
    int i, length = text_length(text);
    char *copy = rarrayalloc(r, length + 1, char);
    for (i = 0; i < length; i++) copy[i] = text[i];
    return copy;
}

/* `length` bytes with a 0 behind them, so `bytes` is a text. `room` counts the 0. */
struct buffer {
    int length, room;
    char *sameregion bytes;
};

/* Gives an empty buffer in a region. */
struct buffer *new_buffer(region r) {
    struct buffer *b = ralloc(r, struct buffer);
    b->room = 16;
    b->bytes = rarrayalloc(r, 16, char);
    return b;
}

/* Adds a byte. Where the room is used up the bytes move, in the buffer's region, so `bytes` is read anew
   behind each call. What is left behind is never more than what is kept. */
void add_byte(struct buffer *b, int byte) {
    char *bytes;
    int i;
    if (b->length + 1 == b->room) {
        bytes = rarrayalloc(regionof(b), 2 * b->room, char);
        for (i = 0; i < b->length; i++) bytes[i] = b->bytes[i];
        b->bytes = bytes;
        b->room *= 2;
    }
    b->bytes[b->length] = byte;
    b->length++;
}

/* The standard input, with one byte seen ahead. */
struct input {
    int byte;          /* the next byte, or EOF */
    int line, column;  /* where it stands, each from 1 */
    int failed;        /* whether a number wasn't there, or doesn't fit */
};

/* Gives the standard input, in a region. A program opens it once. */
struct input *open_input(region r) {
    struct input *in = ralloc(r, struct input);
    in->byte = getchar();
    in->line = 1;
    in->column = 1;
    return in;
}

/* Goes on to the next byte, if the end isn't reached. */
void advance(struct input *in) {
    if (in->byte == EOF) return;
    in->column++;
    if (in->byte == '\n') {
        in->line++;
        in->column = 1;
    }
    in->byte = getchar();
}

int is_blank(int byte) {
    return byte == ' ' || byte == '\t' || byte == '\n' || byte == '\r';
}

int is_digit(int byte) {
    return byte >= '0' && byte <= '9';
}

/* Goes on to the next byte that is no blank. */
void skip_blanks(struct input *in) {
    while (is_blank(in->byte)) advance(in);
}

/* A symbol. All lie in region 0. */
struct entry {
    char *sameregion key;
    struct entry *sameregion next;     /* in the same slot */
    struct value *traditional defined; /* its value outside of functions, if it has one */
    int known;                         /* whether it has one, which may be the empty list */
    int form;                          /* which form it begins, else 0 */
};

struct table {
    int count, room;
    struct entry *sameregion *sameregion slots;
};

/* Gives an empty table in a region. */
struct table *new_table(region r) {
    struct table *t = ralloc(r, struct table);
    t->room = 16;
    t->slots = rarrayalloc(r, 16, struct entry *sameregion);
    return t;
}

/* The number of the slot, of so many, that a key belongs into. */
int slot_of(char *key, int room) {
    unsigned hash = 0;
    int i;
    for (i = 0; key[i]; i++) hash = hash * 31 + key[i];
    return hash % room;
}

/* Gives the entry of a key; NULL where there is none. */
struct entry *find_entry(struct table *t, char *key) {
    struct entry *e = t->slots[slot_of(key, t->room)];
    while (e && compare_texts(e->key, key) != 0) e = e->next;
    return e;
}

/* Doubles the slots of a table, in its region. */
void grow_table(struct table *t) {
    int i, slot, room = 2 * t->room;
    struct entry *sameregion *slots = rarrayalloc(regionof(t), room, struct entry *sameregion);
    struct entry *e, *next;
    for (i = 0; i < t->room; i++) {
        e = t->slots[i];
        while (e) {
            next = e->next;
            slot = slot_of(e->key, room);
            e->next = slots[slot];
            slots[slot] = e;
            e = next;
        }
    }
    t->slots = slots;
    t->room = room;
}

/* Gives the entry of a key. Where there is none it makes one, in the table's region, with a copy of the key
   and the rest zero and null. */
struct entry *take_entry(struct table *t, char *key) {
    struct entry *sameregion *slots;
    struct entry *e = find_entry(t, key);
    int slot;
    if (e) return e;
    if (t->count == t->room) grow_table(t);
    e = ralloc(regionof(t), struct entry);
    e->key = copy_text(regionof(t), key);
    slots = t->slots;
    slot = slot_of(key, t->room);
    e->next = slots[slot];
    slots[slot] = e;
    t->count++;
    return e;
}

/* ---- values */

/* The empty list is NULL. */
struct value {
    int kind;                       /* '0' number, 's' symbol, '(' pair, 'f' function, 'b' one that is built in */
    int number;                     /* of a function that is built in, which */
    struct entry *traditional symbol;
    struct value *parentptr head;   /* the first of a pair; the parameters of a function */
    struct value *parentptr tail;   /* the second; the body */
    struct frame *parentptr frame;  /* what a function knows beside its parameters */
    struct value *traditional kept; /* its copy in region 0, once there is one */
};

/* The value of a parameter, before those that are further out. */
struct frame {
    struct entry *traditional symbol;
    struct value *parentptr value;
    struct frame *parentptr outer;
    struct frame *traditional kept; /* as above */
};

struct table *traditional symbols;
int failed;                         /* whether the form that is worked on is wrong */

/* Tells what is wrong with the form that is worked on, once. Gives NULL. */
struct value *fail(char *what, char *more) {
    if (!failed) {
        print_text("wrong: ");
        print_text(what);
        print_text(more);
        putchar('\n');
    }
    failed = 1;
    return NULL;
}

struct value *new_number(region r, int number) {
    struct value *v = ralloc(r, struct value);
    v->kind = '0';
    v->number = number;
    return v;
}

/* Both lie in r's region, or above it. */
struct value *new_pair(region r, struct value *head, struct value *tail) {
    struct value *v = ralloc(r, struct value);
    v->kind = '(';
    v->head = head;
    v->tail = tail;
    return v;
}

struct value *new_symbol(region r, char *name) {
    struct value *v = ralloc(r, struct value);
    v->kind = 's';
    v->symbol = take_entry(symbols, name);
    return v;
}

int is_kind(struct value *v, int kind) {
    return v && v->kind == kind;
}

/* ---- copies into region 0. What was copied once is found by `kept`, so what is shared stays shared. */

struct value *keep(struct value *v);

struct frame *keep_frame(struct frame *f) {
    struct frame *copy;
    if (!f) return NULL;
    if (f->kept) return f->kept;
    copy = ralloc(regionof(symbols), struct frame);
    f->kept = copy;
    copy->kept = copy;
    copy->symbol = f->symbol;
    copy->value = keep(f->value);
    copy->outer = keep_frame(f->outer);
    return copy;
}

struct value *keep(struct value *v) {
    struct value *copy;
    if (!v) return NULL;
    if (v->kept) return v->kept;
    copy = ralloc(regionof(symbols), struct value);
    v->kept = copy;
    copy->kept = copy;
    copy->kind = v->kind;
    copy->number = v->number;
    copy->symbol = v->symbol;
    copy->head = keep(v->head);
    copy->tail = keep(v->tail);
    copy->frame = keep_frame(v->frame);
    return copy;
}

/* ---- reading */

/* Goes on to the next form, past blanks and comments. */
void skip_comments(struct input *in) {
    skip_blanks(in);
    while (in->byte == ';') {
        while (in->byte != '\n' && in->byte != EOF) advance(in);
        skip_blanks(in);
    }
}

struct value *read_form(region r, struct input *in);

/* What is left of a list. */
struct value *read_list(region r, struct input *in) {
    struct value *head;
    skip_comments(in);
    if (in->byte == EOF) return fail("the input ends in a list", "");
    if (in->byte == ')') {
        advance(in);
        return NULL;
    }
    head = read_form(r, in);
    return new_pair(r, head, read_list(r, in));
}

/* A number or a symbol. */
struct value *read_atom(region r, struct input *in) {
    struct buffer *text = new_buffer(r);
    unsigned number = 0;
    int i = 0;
    while (in->byte != EOF && !is_blank(in->byte) && in->byte != '(' && in->byte != ')') {
        add_byte(text, in->byte);
        advance(in);
    }
    if (text->bytes[0] == '-' && text->length > 1) i = 1;
    while (is_digit(text->bytes[i])) {
        number = number * 10 + text->bytes[i] - '0';
        i++;
    }
    if (text->bytes[i]) return new_symbol(r, text->bytes);
    return new_number(r, text->bytes[0] == '-' ? 0u - number : number);
}

struct value *read_form(region r, struct input *in) {
    skip_comments(in);
    if (in->byte == EOF) return fail("the input ends in a form", "");
    if (in->byte == ')') {
        advance(in);
        return fail("a list ends that isn't open", "");
    }
    if (in->byte == '(') {
        advance(in);
        return read_list(r, in);
    }
    if (in->byte == '\'') {
        advance(in);
        return new_pair(r, new_symbol(r, "quote"), new_pair(r, read_form(r, in), NULL));
    }
    return read_atom(r, in);
}

/* ---- printing */

void print_value(struct value *v) {
    if (!v) {
        print_text("()");
    } else if (v->kind == '0') {
        print_int(v->number);
    } else if (v->kind == 's') {
        print_text(v->symbol->key);
    } else if (v->kind != '(') {
        print_text("function");
    } else {
        putchar('(');
        print_value(v->head);
        v = v->tail;
        while (is_kind(v, '(')) {
            putchar(' ');
            print_value(v->head);
            v = v->tail;
        }
        if (v) {
            print_text(" . ");
            print_value(v);
        }
        putchar(')');
    }
}

/* ---- evaluation. All values and frames lie in r's region, or in region 0. */

/* The first, second, .. part of a form, counted from 0; the empty list where it has none. */
struct value *part(struct value *form, int number) {
    while (number > 0 && is_kind(form, '(')) {
        form = form->tail;
        number--;
    }
    if (!is_kind(form, '(')) return NULL;
    return form->head;
}

/* Whether a form, or a call of a function that is built in, has the parts that its code wants. */
int has_parts(struct value *form, int code) {
    int count = 0;
    while (is_kind(form, '(')) {
        count++;
        form = form->tail;
    }
    if (code == 'q' || code == 'a' || code == 'd' || code == 'p') return count == 2;
    return count == 3 || (code == 'i' && count == 4);
}

struct value *truth(region r, int number) {
    if (number) return new_number(r, 1);
    return NULL;
}

int is_same(struct value *a, struct value *b) {
    if (!a || !b || a->kind != b->kind) return a == b;
    if (a->kind == '0') return a->number == b->number;
    if (a->kind == 's') return a->symbol == b->symbol;
    return a == b;
}

struct value *calculate(region r, int code, unsigned a, unsigned b) {
    int left = a, right = b;
    if (code == '+') return new_number(r, a + b);
    if (code == '-') return new_number(r, a - b);
    if (code == '*') return new_number(r, a * b);
    if (code == '<') return truth(r, left < right);
    if (code == '=') return truth(r, left == right);
    if (right == 0) return fail("a number is divided by 0", "");
    if (right == -1) return new_number(r, 0 - a);
    return new_number(r, left / right);
}

/* A call of a function that is built in. */
struct value *call_built_in(region r, int code, struct value *a, struct value *b) {
    if (code == 'c') return new_pair(r, a, b);
    if (code == 'p') return truth(r, is_kind(a, '('));
    if (code == 'e') return truth(r, is_same(a, b));
    if (code == 'a' || code == 'd') {
        if (!is_kind(a, '(')) return fail("a pair is wanted", "");
        if (code == 'a') return a->head;
        return a->tail;
    }
    if (!is_kind(a, '0') || !is_kind(b, '0')) return fail("two numbers are wanted", "");
    return calculate(r, code, a->number, b->number);
}

struct value *new_function(region r, struct value *parameters, struct value *body, struct frame *frame) {
    struct value *v = ralloc(r, struct value);
    v->kind = 'f';
    v->head = parameters;
    v->tail = body;
    v->frame = frame;
    return v;
}

struct frame *bind(region r, struct value *name, struct value *value, struct frame *outer) {
    struct frame *f = ralloc(r, struct frame);
    if (!is_kind(name, 's')) fail("a name is wanted", "");
    else f->symbol = name->symbol;
    f->value = value;
    f->outer = outer;
    return f;
}

struct value *evaluate(region r, struct value *form, struct frame *frame);

/* The frame in which a function's body is evaluated: its parameters have the values of these forms. */
struct frame *enter(region r, struct value *function, struct value *forms, struct frame *frame) {
    struct frame *inner = function->frame;
    struct value *names = function->head;
    while (is_kind(names, '(') && is_kind(forms, '(')) {
        inner = bind(r, names->head, evaluate(r, forms->head, frame), inner);
        names = names->tail;
        forms = forms->tail;
    }
    if (names || forms) fail("a function has another number of parameters", "");
    return inner;
}

/* The frame of a let, of which these are the names, each with its form in a list. */
struct frame *enter_let(region r, struct value *names, struct frame *frame) {
    struct frame *inner = frame;
    while (is_kind(names, '(')) {
        inner = bind(r, part(names->head, 0), evaluate(r, part(names->head, 1), frame), inner);
        names = names->tail;
    }
    return inner;
}

/* Lets a symbol have a value from now on, and gives the name. Where something is wrong it gives NULL, and not
   what fail gives: of that it is only known that it is permanent, and not that it lies where the name does. */
struct value *define(struct value *name, struct value *value) {
    struct entry *symbol;
    if (!is_kind(name, 's')) fail("a name is wanted", "");
    if (failed) return NULL;
    symbol = name->symbol;
    symbol->known = 1;
    symbol->defined = keep(value);
    return name;
}

/* The frame that has a symbol; NULL where none has. */
struct frame *find_frame(struct entry *symbol, struct frame *frame) {
    while (frame && frame->symbol != symbol) frame = frame->outer;
    return frame;
}

/* The value that a symbol was given by a define. */
struct value *find_defined(struct entry *symbol) {
    if (!symbol->known) fail("nothing is known of ", symbol->key);
    return symbol->defined;
}

/* The value of a form in a frame. Where something is wrong, `failed` is set, and the value means nothing.
   A body is evaluated in the same call as what it stands in, so loops may be written as functions that
   call themselves last. */
struct value *evaluate(region r, struct value *form, struct frame *frame) {
    struct value *first, *second;
    struct frame *found;
    int code;
    while (!failed && is_kind(form, '(')) {
        first = form->head;
        code = 0;
        if (is_kind(first, 's')) code = first->symbol->form;
        if (code && !has_parts(form, code)) return fail("parts are missing, or too many, in ", first->symbol->key);
        if (code == 'q') return part(form, 1);
        if (code == 'l') return new_function(r, part(form, 1), part(form, 2), frame);
        if (code == 'D' && is_kind(part(form, 1), '(')) {
            first = part(form, 1);
            return define(first->head, new_function(r, first->tail, part(form, 2), frame));
        }
        if (code == 'D') return define(part(form, 1), evaluate(r, part(form, 2), frame));
        if (code == 'i') {
            first = evaluate(r, part(form, 1), frame);
            form = part(form, first ? 2 : 3);
        } else if (code == 't') {
            frame = enter_let(r, part(form, 1), frame);
            form = part(form, 2);
        } else {
            first = evaluate(r, first, frame);
            if (is_kind(first, 'b')) {
                if (!has_parts(form, first->number)) return fail("parts are missing, or too many", "");
                second = evaluate(r, part(form, 1), frame);
                return call_built_in(r, first->number, second, evaluate(r, part(form, 2), frame));
            }
            if (!is_kind(first, 'f')) return fail("a function is wanted", "");
            frame = enter(r, first, form->tail, frame);
            form = first->tail;
        }
    }
    if (!is_kind(form, 's')) return form;
    found = find_frame(form->symbol, frame);
    if (found) return found->value;
    return find_defined(form->symbol);
}

/* ---- the names that are there from the start */

void add_form(char *name, int code) {
    take_entry(symbols, name)->form = code;
}

void add_function(char *name, int code) {
    struct entry *symbol = take_entry(symbols, name);
    struct value *v = new_number(regionof(symbols), code);
    v->kind = 'b';
    v->kept = v;
    symbol->known = 1;
    symbol->defined = v;
}

void add_names(void) {
    add_form("quote", 'q');
    add_form("if", 'i');
    add_form("let", 't');
    add_form("lambda", 'l');
    add_form("define", 'D');
    add_function("+", '+');
    add_function("-", '-');
    add_function("*", '*');
    add_function("/", '/');
    add_function("<", '<');
    add_function("=", '=');
    add_function("cons", 'c');
    add_function("car", 'a');
    add_function("cdr", 'd');
    add_function("pair?", 'p');
    add_function("eq?", 'e');
}

int main(void) deletes {
    region stay = regionof(""), own;
    struct input *in = open_input(stay);
    struct value *v;
    symbols = new_table(stay);
    add_names();
    skip_comments(in);
    while (in->byte != EOF) {
        own = newregion();
        failed = 0;
        v = evaluate(own, read_form(own, in), NULL);
        if (!failed) {
            print_value(v);
            putchar('\n');
        }
        deleteregion(own);
        skip_comments(in);
    }
    return 0;
}
