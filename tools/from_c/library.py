"""What is taken of the C library: signatures, and the functions of RC that stand for its functions."""

from . import types as T

STRING = T.Pointer(T.CHAR)

# Letters: i int, b a byte whose sign doesn't matter, s string, z a number of elements, f a stream, v nothing,
# l a length that is small, e an int whose value is only tested.
SIGNATURES = {
    "getchar": "i", "putchar": "ib", "getc": "if", "fgetc": "if", "putc": "ibf", "fputc": "ibf",
    "puts": "is", "fputs": "isf", "fgets": "sszf", "fflush": "if", "exit": "vi", "abs": "ii", "atoi": "is",
    "strlen": "ls", "strcmp": "iss", "strncmp": "issz", "strcpy": "sss", "strncpy": "sssz",
    "strcat": "sss", "strncat": "sssz", "strchr": "ssb", "strrchr": "ssb", "strstr": "sss",
    "isalnum": "ib", "isalpha": "ib", "isblank": "ib", "iscntrl": "ib", "isdigit": "ib", "isgraph": "ib", "islower": "ib",
    "isprint": "ib", "ispunct": "ib", "isspace": "ib", "isupper": "ib", "isxdigit": "ib",
    "tolower": "ib", "toupper": "ib", "assert": "ve",
}
# Names that the checker takes apart itself.
SPECIAL = ("printf", "fprintf", "malloc", "calloc", "free", "memset", "memcpy")
REGIONS = ("newregion", "newsubregion", "deleteregion", "regionof", "from_c_ralloc", "from_c_rarrayalloc")

# Which functions read (r) or write (w) the characters of strings, take input (I) or write output (O).
EFFECTS = {
    "getchar": "I", "getc": "I", "fgetc": "I", "putchar": "O", "putc": "O", "fputc": "O", "puts": "Or", "fputs": "Or", "fgets": "Iw",
    "atoi": "r", "strlen": "r", "strcmp": "r", "strncmp": "r", "strcpy": "rw", "strncpy": "rw", "strcat": "rw",
    "strncat": "rw", "strchr": "r", "strrchr": "r", "strstr": "r", "exit": "OI",
}


def parameter_types(letters):
    known = {"i": T.INT, "b": T.INT, "s": STRING, "z": T.INT, "e": T.INT}
    return [known.get(letter) for letter in letters[1:]]


def result_type(letters):
    return {"i": T.INT, "v": T.VOID, "s": STRING, "l": T.UNSIGNED_LONG}[letters[0]]


# The text of each helper: {name} stands for the name that it gets in the program. What it needs comes before it.
HELPERS = {
    "write_text": ([], """void {write_text}(char *text) {
    int i;
    for (i = 0; text[i] != 0; i++) putchar(text[i]);
}
"""),
    "write_line": (["write_text"], """int {write_line}(char *text) {
    {write_text}(text);
    return putchar('\\n');
}
"""),
    "write_unsigned": ([], """void {write_unsigned}(unsigned number) {
    if (number > 9) {write_unsigned}(number / 10);
    putchar('0' + number % 10);
}
"""),
    "write_int": (["write_unsigned"], """void {write_int}(int number) {
    if (number < 0) {
        putchar('-');
        {write_unsigned}(-(unsigned)number);
    } else {write_unsigned}(number);
}
"""),
    "write_based": ([], """void {write_based}(unsigned number, unsigned base, int letter) {
    if (number >= base) {write_based}(number / base, base, letter);
    if (number % base > 9) putchar(letter + (number % base - 10));
    else putchar('0' + number % base);
}
"""),
    "write_many": ([], """void {write_many}(int byte, int count) {
    while (count > 0) {
        putchar(byte);
        count--;
    }
}
"""),
    # before: a sign, or 0. The kinds of filling: 0 blanks before, 1 zeros before, 2 blanks after.
    "write_field": (["write_based", "write_many"], """void {write_field}(int before, unsigned number, unsigned base, int letter, int width, int filling, int digits) {
    unsigned rest = number;
    int length = 0;
    while (rest != 0) {
        rest /= base;
        length++;
    }
    if (digits < 0) {
        digits = 1;
        if (filling == 1) digits = width - (before != 0);
    }
    if (digits < length) digits = length;
    if (filling != 2) {write_many}(' ', width - digits - (before != 0));
    if (before != 0) putchar(before);
    {write_many}('0', digits - length);
    if (number != 0) {write_based}(number, base, letter);
    if (filling == 2) {write_many}(' ', width - digits - (before != 0));
}
"""),
    "write_int_field": (["write_field"], """void {write_int_field}(int number, int plus, int width, int filling, int digits) {
    if (number < 0) {write_field}('-', -(unsigned)number, 10, 'a', width, filling, digits);
    else {write_field}(plus, number, 10, 'a', width, filling, digits);
}
"""),
    "write_text_field": (["write_many"], """void {write_text_field}(char *text, int width, int filling, int most) {
    int length = 0, i;
    while ((most < 0 || length < most) && text[length] != 0) length++;
    if (filling != 2) {write_many}(' ', width - length);
    for (i = 0; i < length; i++) putchar(text[i]);
    if (filling == 2) {write_many}(' ', width - length);
}
"""),
    "read_line": ([], """char *{read_line}(char *to, int size) {
    int i = 0, byte = 0;
    while (i < size - 1 && byte != '\\n') {
        byte = getchar();
        if (byte == EOF) break;
        to[i] = byte;
        i++;
    }
    if (size <= 0 || (i == 0 && byte == EOF)) return NULL;
    to[i] = 0;
    return to;
}
"""),
    "absolute": ([], """int {absolute}(int number) {
    return number < 0 ? -number : number;
}
"""),
    "number_of_text": ([], """int {number_of_text}(char *text) {
    int i = 0, negative = 0, number = 0;
    while (text[i] == ' ' || (text[i] >= '\\t' && text[i] <= '\\r')) i++;
    if (text[i] == '-' || text[i] == '+') {
        negative = text[i] == '-';
        i++;
    }
    while (text[i] >= '0' && text[i] <= '9') {
        number = negative ? number * 10 - (text[i] - '0') : number * 10 + (text[i] - '0');
        i++;
    }
    return number;
}
"""),
    "text_length": ([], """int {text_length}(char *text) {
    int length = 0;
    while (text[length] != 0) length++;
    return length;
}
"""),
    "text_compare": ([], """int {text_compare}(char *one, char *other) {
    int i = 0;
    while (one[i] != 0 && one[i] == other[i]) i++;
    return (one[i] > other[i]) - (one[i] < other[i]);
}
"""),
    "text_compare_most": ([], """int {text_compare_most}(char *one, char *other, int most) {
    int i = 0;
    while (i < most && one[i] != 0 && one[i] == other[i]) i++;
    if (i >= most) return 0;
    return (one[i] > other[i]) - (one[i] < other[i]);
}
"""),
    "text_copy": ([], """char *{text_copy}(char *to, char *from) {
    int i;
    for (i = 0; from[i] != 0; i++) to[i] = from[i];
    to[i] = 0;
    return to;
}
"""),
    "text_copy_most": ([], """char *{text_copy_most}(char *to, char *from, int most) {
    int i = 0;
    while (i < most && from[i] != 0) {
        to[i] = from[i];
        i++;
    }
    while (i < most) {
        to[i] = 0;
        i++;
    }
    return to;
}
"""),
    "text_append": (["text_length", "text_copy"], """char *{text_append}(char *to, char *from) {
    {text_copy}(to + {text_length}(to), from);
    return to;
}
"""),
    "text_append_most": (["text_length"], """char *{text_append_most}(char *to, char *from, int most) {
    int end = {text_length}(to), i = 0;
    while (i < most && from[i] != 0) {
        to[end + i] = from[i];
        i++;
    }
    to[end + i] = 0;
    return to;
}
"""),
    "text_find_byte": ([], """char *{text_find_byte}(char *text, int byte) {
    int i = 0;
    char wanted = byte;
    while (text[i] != wanted && text[i] != 0) i++;
    if (text[i] == wanted) return text + i;
    return NULL;
}
"""),
    "text_find_last_byte": ([], """char *{text_find_last_byte}(char *text, int byte) {
    int i = 0, found = -1;
    char wanted = byte;
    do {
        if (text[i] == wanted) found = i;
        i++;
    } while (text[i - 1] != 0);
    if (found < 0) return NULL;
    return text + found;
}
"""),
    "text_find": ([], """char *{text_find}(char *text, char *wanted) {
    int start = 0, i = 0;
    for (;;) {
        i = 0;
        while (wanted[i] != 0 && text[start + i] == wanted[i]) i++;
        if (wanted[i] == 0) return text + start;
        if (text[start] == 0) return NULL;
        start++;
    }
}
"""),
    "is_lower": ([], "int {is_lower}(int byte) {\n    return byte >= 'a' && byte <= 'z';\n}\n"),
    "is_upper": ([], "int {is_upper}(int byte) {\n    return byte >= 'A' && byte <= 'Z';\n}\n"),
    "is_digit": ([], "int {is_digit}(int byte) {\n    return byte >= '0' && byte <= '9';\n}\n"),
    "is_alpha": ([], "int {is_alpha}(int byte) {\n    return (byte >= 'a' && byte <= 'z') || (byte >= 'A' && byte <= 'Z');\n}\n"),
    "is_alnum": (["is_alpha", "is_digit"], "int {is_alnum}(int byte) {\n    return {is_alpha}(byte) || {is_digit}(byte);\n}\n"),
    "is_blank": ([], "int {is_blank}(int byte) {\n    return byte == ' ' || byte == '\\t';\n}\n"),
    "is_space": ([], "int {is_space}(int byte) {\n    return byte == ' ' || (byte >= '\\t' && byte <= '\\r');\n}\n"),
    "is_graph": ([], "int {is_graph}(int byte) {\n    return byte > ' ' && byte < 127;\n}\n"),
    "is_print": ([], "int {is_print}(int byte) {\n    return byte >= ' ' && byte < 127;\n}\n"),
    "is_cntrl": ([], "int {is_cntrl}(int byte) {\n    return (byte >= 0 && byte < ' ') || byte == 127;\n}\n"),
    "is_punct": (["is_graph", "is_alnum"], "int {is_punct}(int byte) {\n    return {is_graph}(byte) && !{is_alnum}(byte);\n}\n"),
    "is_xdigit": (["is_digit"], "int {is_xdigit}(int byte) {\n    return {is_digit}(byte) || (byte >= 'a' && byte <= 'f') || (byte >= 'A' && byte <= 'F');\n}\n"),
    "to_lower": ([], "int {to_lower}(int byte) {\n    return byte >= 'A' && byte <= 'Z' ? byte + 32 : byte;\n}\n"),
    "to_upper": ([], "int {to_upper}(int byte) {\n    return byte >= 'a' && byte <= 'z' ? byte - 32 : byte;\n}\n"),
    "fill_bytes": ([], """char *{fill_bytes}(char *to, int byte, int count) {
    int i;
    for (i = 0; i < count; i++) to[i] = byte;
    return to;
}
"""),
    "copy_bytes": ([], """char *{copy_bytes}(char *to, char *from, int count) {
    int i;
    for (i = 0; i < count; i++) to[i] = from[i];
    return to;
}
"""),
    "stop_at_failed_assertion": ([], """void {stop_at_failed_assertion}(void) {
    int zero = 0;
    zero = 1 / zero;
}
"""),
}

# The helper that stands for a function of the library.
STANDS_FOR = {
    "abs": "absolute", "atoi": "number_of_text", "strlen": "text_length", "strcmp": "text_compare",
    "strncmp": "text_compare_most", "strcpy": "text_copy", "strncpy": "text_copy_most", "strcat": "text_append",
    "strncat": "text_append_most", "strchr": "text_find_byte", "strrchr": "text_find_last_byte",
    "strstr": "text_find", "tolower": "to_lower", "toupper": "to_upper", "puts": "write_line",
    "fgets": "read_line",
    **{"is" + kind: "is_" + kind for kind in
       "alnum alpha blank cntrl digit graph lower print punct space upper xdigit".split()},
}

# Names of the library that people use and that can't be had, with the reason.
REASONS = {
    "realloc": "an object of a region can't grow: allocate anew and copy",
    "qsort": "it takes a pointer to a function", "bsearch": "it takes a pointer to a function",
    "scanf": "read with getchar", "fscanf": "read with getchar", "sscanf": "read with getchar",
    "sprintf": "write the characters one by one", "snprintf": "write the characters one by one",
    "rand": "its numbers are the C library's own", "srand": "its numbers are the C library's own",
}

# What stdio.h, stdlib.h and regions.h of a C compiler declare: no name of the output may be one of them.
TAKEN = set("""
a64l abort abs aligned_alloc alloca arc4random arc4random_buf arc4random_uniform at_quick_exit atexit atof atoi atol
atoll bsearch calloc clearenv clearerr clearerr_unlocked ctermid cuserid div dprintf drand48 drand48_r ecvt ecvt_r
erand48 erand48_r exit fclose fcloseall fcvt fcvt_r fdopen feof feof_unlocked ferror ferror_unlocked fflush
fflush_unlocked fgetc fgetc_unlocked fgetpos fgets fgets_unlocked fileno fileno_unlocked flockfile fmemopen fopen
fopencookie fprintf fputc fputc_unlocked fputs fputs_unlocked fread fread_unlocked free freopen fscanf fseek fseeko
fsetpos ftell ftello ftrylockfile funlockfile fwrite fwrite_unlocked gcvt getc getc_unlocked getchar getchar_unlocked
getdelim getenv getline getloadavg getpt gets getsubopt getw grantpt initstate initstate_r jrand48 jrand48_r l64a labs
lcong48 lcong48_r ldiv llabs lldiv lrand48 lrand48_r malloc mblen mbstowcs mbtowc mkdtemp mkostemp mkostemps mkstemp
mkstemps mktemp mrand48 mrand48_r nrand48 nrand48_r obstack_printf obstack_vprintf on_exit open_memstream pclose
perror popen posix_memalign posix_openpt printf ptsname ptsname_r putc putc_unlocked putchar putchar_unlocked putenv
puts putw qecvt qecvt_r qfcvt qfcvt_r qgcvt qsort qsort_r quick_exit rand rand_r random random_r realloc reallocarray
realpath remove rename renameat rewind rpmatch scanf secure_getenv seed48 seed48_r select pselect setbuf setbuffer
setenv setlinebuf setstate setstate_r setvbuf snprintf sprintf srand srand48 srand48_r srandom srandom_r sscanf stderr
stdin stdout strtod strtof strtol strtold strtoll strtoq strtoul strtoull strtouq system tempnam tmpfile tmpnam
tmpnam_r ungetc unlockpt unsetenv vasprintf asprintf vdprintf vfprintf vfscanf vprintf vscanf vsnprintf vsprintf
vsscanf wcstombs wctomb size_t ssize_t off_t wchar_t div_t ldiv_t lldiv_t FILE fpos_t va_list ushort uint ulong
u_char u_short u_int u_long quad_t u_quad_t fsid_t loff_t ino_t dev_t gid_t mode_t nlink_t uid_t pid_t id_t daddr_t
caddr_t key_t clock_t clockid_t time_t timer_t int8_t int16_t int32_t int64_t u_int8_t u_int16_t u_int32_t u_int64_t
register_t sigset_t suseconds_t fd_set fd_mask blksize_t blkcnt_t fsblkcnt_t fsfilcnt_t timeval timespec random_data
drand48_data htobe16 linux unix i386
region_block region_record region_root region_allocate newregion newsubregion deleteregion regionof
strlen strcmp strncmp strcpy strncpy strcat strncat strchr strrchr strstr memset memcpy memmove memcmp
isalnum isalpha iscntrl isdigit isgraph islower isprint ispunct isspace isupper isxdigit tolower toupper
pow sqrt sin cos tan exp log floor ceil round index rindex bcopy bzero ffs y0 y1 yn j0 j1 jn gamma signbit
""".split())

# Words that RC reserves, beside those of C.
RESERVED = set("""break char continue deletes do else EOF for if int NULL parentptr ralloc rarrayalloc region return
sameregion struct traditional unsigned void while auto case const default double enum extern float goto inline long
register restrict short signed sizeof static switch typedef union volatile asm typeof""".split())
