"""What each line of rc means, and what to do: a table for each kind, and one of what C has and RC hasn't."""

# What each refusal of a text means, and what to do.
REFUSALS = {
    1: ("too-long", "a text has at most 1,048,576 bytes: make it shorter, or several files, which rc link takes"),
    2: ("byte", "a byte on this line begins no word: leave it out"),
    3: ("token", "a number, a character or a string isn't well formed, or a comment has no end"),
    4: (
        "syntax",
        "a word on this line can't follow those before it, or the text ends too early: a ; or a brace is "
        "missing before it, or C is written that isn't in RC",
    ),
    5: (
        "deep",
        "things stand more than 200 deep in one another here, or an expression has over 1,024 words: use "
        "locals for its parts, functions for parts of a body, or cut a chain of else if in two",
    ),
    6: (
        "unknown",
        "a name, a struct, a field or a function's definition isn't there: declare it before its use, define "
        "the function, or move the struct up",
    ),
    7: ("twice", "a name is declared twice in one scope, or a function is defined twice: rename one of them"),
    8: (
        "type",
        "a rule on types fails: often 0 for NULL, & of a local or a field, a pointer or region in ?:, p < q, "
        "p - q, a struct as a value, or a return that doesn't fit the function's head",
    ),
    9: ("arity", "a call has another number of arguments than its function has parameters"),
    10: (
        "annotation-place",
        "the last star of a local, a parameter or a result has an annotation, which would say nothing there: "
        "leave it out",
    ),
    11: (
        "not-deletes",
        "a function without deletes calls one that has it, and deleteregion has it: write deletes behind the "
        "head of this function, and of those that call it",
    ),
    12: (
        "deletes-place",
        "a call of a function that deletes stands inside of something: give its result to a local first, as "
        "in x = f(r); y = x + 1;",
    ),
    13: ("main", "there is no main, or it has parameters or another result than int: write int main(void)"),
    14: (
        "too-big",
        "an array has the length 0, a struct more than 4,096 cells, or the globals more than 1,048,576: make "
        "them smaller, or take memory of a region",
    ),
    15: (
        "variables",
        "the function that begins here has more than 128 region variables: make two functions of it, or "
        "flatter expressions",
    ),
    16: ("points", "the program has more than 65,536 points, its steps when it is translated: make it shorter"),
}

# What keeps files apart that rc link is given, and what to do.
LINK_REFUSALS = {
    32: (
        "disagree",
        "a struct has other fields here, or a function another head, than in an earlier file: write it in both "
        "files in the same words",
    ),
    33: (
        "double",
        "a function is defined in an earlier file too, or a name is a global of one file and a global or a "
        "function of another: rename one of them, or declare it here in place of defining it",
    ),
    34: ("missing", "a function is called here that no file defines: name the file that does, or define it"),
    35: ("entry", "no file defines main: name the file that does"),
    36: (
        "large",
        "the globals of all files have more than 1,048,576 cells: make them smaller, or take memory of a region",
    ),
}

# What each refusal of an image means.
REMADE = "make it anew with rc compile"
IMAGE_REFUSALS = {
    17: ("magic", "its first bytes are not those of an image: is it a text? rc run and rc compile take texts"),
    18: ("version", "the version of its format is neither 1 nor 2"),
    19: ("short", f"its bytes end inside the image: a part of it is missing, so {REMADE}"),
    20: ("extra", f"bytes follow the image, or it has more than 268,435,456: {REMADE}"),
    21: ("field", f"the field that begins at this byte, counted from 0, breaks a rule of the format: {REMADE}"),
    22: ("target", "a jump leads out of its function or the wrong way, there is no code, or it runs off its end"),
    23: ("height", "an operand is missing, or one is left where none may be"),
    24: ("kind", "an operand has a wrong kind"),
    25: (
        "number",
        "an operand names what is not there, pins are wrong, a plain cell is marked, or main has a wrong "
        "shape",
    ),
    29: ("facts", "the proofs that the image carries do not prove it: seal it anew with rc seal"),
    30: (
        "pins",
        "a region or pointer that is used behind it is not pinned, or one stands below its operands: an image "
        "of rc compile pins all it has to",
    ),
    31: ("wide", "a function has more variables than proofs speak of: without proofs the image runs"),
}

# What each trap means, and what to do.
OUT_OF_PLACE = "make the object in the right region, or leave the annotation out"
TRAPS = {
    "null": "a null pointer or region was used: test it before, or set it",
    "bounds": (
        "an element or an index lies outside its array, or a pointer was stepped past the end of its object: "
        "compare it with the length first; a pointer may stand at the end, but not be read there"
    ),
    "size": "rarrayalloc was asked for a negative number of elements: test the number before; 0 is fine",
    "zero": "something was divided by zero: test the divisor before",
    "overflow": "a result is no int: use unsigned where it is meant to wrap",
    "shift": "a shift is by less than 0 or more than 31",
    "sameregion": f"a sameregion cell would lead out of the region of its own object: {OUT_OF_PLACE}",
    "parentptr": f"a parentptr cell would lead into a region that isn't above that of its own object: {OUT_OF_PLACE}",
    "traditional": (
        "a traditional cell would lead into another region than region 0, where globals and strings lie: "
        f"{OUT_OF_PLACE}"
    ),
    "root": (
        "region 0, where globals and strings lie, was to be deleted: delete only what newregion and "
        "newsubregion gave"
    ),
    "subregion": "the region has a child that lives, made by newsubregion: delete the child first",
    "reference": "something outside of the region, which can still be used, names it",
    "full": "a limit of regions or objects is reached",
}

# What the other lines mean.
ENDS = {
    "spent": (
        "its turns are spent, which are calls and steps back to the heads of loops: a loop that never ends, "
        "or give it more by --turns N, up to 1,000,000,000,000"
    ),
    "stale image": (
        "the image used a region that it had deleted; no program that rc compiled does, so it comes from "
        "elsewhere or was changed"
    ),
    "file fault": "a file is not there, or reading or storing it failed",
    "read fault": "reading standard input failed",
    "write fault": "writing to standard output failed: is it closed, or the disk full?",
    "no memory": "there was no memory: regions that are deleted earlier need less at a time",
    "usage": "the words ask nothing that there is",
}

# What C has and RC hasn't: the refusals it may come as, how the words of the line show it, and what to write. Behind
# a line feed stand once more the words that are inside of parentheses and brackets, but for the head of a for.
BASE = r"\b(?:int|unsigned|char|region|struct \w+)(?: \*)*"
HABITS = [
    ((2,), r"^# define\b", "there is no preprocessor: write a global, as int length = 10; for #define LENGTH 10"),
    ((2,), r"#", "there is no preprocessor: only lines #include are skipped"),
    ((2,), r"\\", "a backslash stands in characters and strings alone; none is needed at a line's end"),
    ((2,), r"[^\x00-\x7f]", "a byte that isn't ASCII stands in comments, characters and strings alone"),
    ((3,), r"\b2147483648\b", "2147483648 is no int: write -2147483647 - 1, or 2147483648u"),
    ((3,), r"\b\d+[uU]*[lL]", "a number's only suffix is u"),
    ((3,), r"\b\d+ ?\. ?\d|\b\d+[eE]\d", "there are no fractions: numbers are int, unsigned and char"),
    ((4,), r"\b(?:switch|case|default)\b", "there is no switch: write if .. else if"),
    ((4,), r"\bgoto\b", "there is no goto: write a function, or a loop with break"),
    ((4,), r"\bsizeof\b", "there is no sizeof: ralloc(r, T) and rarrayalloc(r, n, T) count in elements"),
    (
        (4,), r"\b(?:typedef|enum|const|static|extern|union|volatile|register|inline|auto|restrict)\b",
        "there is no {}: leave it out; structs are named struct NAME, and constants are globals",
    ),
    (
        (4,), r"\b(?:short|long|signed|float|double)\b",
        "there is no {}: numbers are int, unsigned (both of 32 bits) and char (0 to 255)",
    ),
    (
        (4,), r"^struct \w+ ;",
        "a struct isn't declared without its fields: leave it out, a pointer may name a struct that comes "
        "later",
    ),
    ((4,), r"\} \w+ ;", "a struct is defined by itself: struct s {{ .. }}; and then struct s x;"),
    ((4,), r"\bvoid \*", "there is no void *: use the pointer's own type"),
    (
        (4,), r"\( (?:struct \w+|int|unsigned|char|region)(?: \*)+ \)|\( (?:region|struct \w+) \)",
        "only numbers are cast, to int, unsigned and char; pointers have their own types",
    ),
    ((4,), r"\( \* \w+ \) \(", "there are no pointers to functions: call them by their names"),
    ((4,), r"\. \. \.", "a function has as many arguments as parameters"),
    ((4,), BASE + r" \w+ (?:\[ \w+ \] ){2}", "an array has one dimension: index it by i * 4 + j"),
    ((4,), BASE + r" \w+ \[ (?:\w+ )?\] [,)]", "a parameter is no array: write int *a for int a[]"),
    ((4,), r"= \{", "an array or struct has no first value: set its elements in main"),
    (
        (4,), BASE + r" \w+ \[",
        "an array isn't local, and its length is a number: make it global, or by rarrayalloc(r, 10, int)",
    ),
    ((4,), r'"" ""', "strings side by side aren't joined: write one"),
    (
        (4,), r"\n.*[\w\])] = ",
        "an assignment is a statement, and no part of an expression: c = getchar(); while (c != EOF) {{ .. c "
        "= getchar(); }}",
    ),
    (
        (4,), r"[\w\])] = [^;=,\n]*[\w\])] = ",
        "an assignment is a statement, and no part of an expression: b = 0; a = b;",
    ),
    ((4,), r"\n.*(?:\+\+|--)", "++ and -- are statements, and no parts of expressions: a[i] = x; i++; for a[i++] = x;"),
    (
        (4,), r"\bfor \( (?!int|unsigned|char|region|struct)[^;()]+ , |\bfor \( .*(?:\+\+|--) , ",
        "there is no comma operator: put one of them before the loop, or into its body",
    ),
    ((6,), r"\b(?:malloc|calloc|realloc)\b", "there is no {}: write ralloc(r, T) or rarrayalloc(r, n, T)"),
    ((6,), r"\bfree\b", "there is no free: objects end with their region, by deleteregion(r)"),
    (
        (6,), r"\b(?:printf|puts|fprintf|scanf|gets|fgets)\b",
        "there is no {}: putchar writes a byte and getchar reads one",
    ),
    ((8,), r" \? ", "a ?: takes numbers alone: write if for pointers, regions and strings"),
    (
        (8,), r"(?:^|[=(,]|return) & ",
        "& takes a global and &p[i]: for a local or a field, pass the value or a pointer to the whole object",
    ),
    ((8,), r"(?:=|,|\(|return) 0\b", "where the 0 is meant for a pointer or a region, write NULL"),
]

# Why a check is kept, and what to write. The first were tried: with what they say, rc removes the check.
USE = "use {0} before the store, as by if (!{0}) return .., or store a number first"
LOADED = "what is loaded twice is two unknowns"
KEPT = {
    "used": f"the check is asked before the store's own null test, and nothing has used {{0}} yet: {USE}",
    "called": f"{{0}} came from a call of {{1}} (line {{2}}), and no function ever gives 'not null': {USE}",
    "once": (
        f"{{0}} is loaded each time that it is written, and {LOADED}: put it into a local, use that before the "
        "store, and then in it"
    ),
    "holder": (
        f"a handle that is kept in an object isn't tied to its holder, and {LOADED}: make what is stored in "
        "regionof({0})"
    ),
    "other": "nothing ties the handle in which it is made to {0}: make what is stored in regionof({0})",
    "handles": f"looks like a handle that is loaded twice, and {LOADED}: load it once, and make both objects in that",
    "handle": (
        "looks like a handle that is kept in an object, which isn't tied to its holder: make what is stored "
        "(line {0}) in regionof of what it is stored into"
    ),
    "plain": (
        "looks like a pointer from a cell without an annotation (line {1}): nothing is known of where {0} leads, "
        f"and {LOADED}; load it once, or annotate the cell"
    ),
    "siblings": (
        "looks like two regions of which neither was made of the other: newsubregion(r) alone says that r is above"
    ),
    "compared": "looks like regions that are compared: regionof(s) == regionof(t) gives no fact",
    "parameters": (
        "looks like parameters of which a call doesn't say enough: each call of {0} has to hand in two of which "
        "it is known (line {1})"
    ),
    "returned": (
        "looks like a call that doesn't say enough: each return of {0} has to give a pointer of which it is known "
        "where it leads, seen from the arguments"
    ),
    "unknown": "no cause that this script knows",
}
# What else a change did, where the object is made in regionof of the place's pointer.
BESIDE = {"used and regionof": ", and use {0} before", "once and regionof": ", with {0} in a local that is used before"}
TRIED = "tried: with that the check is removed"
LATE = "changes of it weren't tried, as those of others took too long"
