/* from-c: --unsigned-char */
/* Tables of strings and of numbers, arrays of pointers, pointers to pointers. */
#include <stdio.h>
#include <string.h>

static const char *const months[] = {
    "illegal", "January", "February", "March", "April", "May", "June",
    "July", "August", "September", "October", "November", "December"
};
static const char daytab[2][13] = {
    { 0, 31, 28, 31, 30, 31, 30, 31, 31, 30, 31, 30, 31 },
    { 0, 31, 29, 31, 30, 31, 30, 31, 31, 30, 31, 30, 31 }
};

static int day_of_year(int year, int month, int day)
{
    int i, leap = (year % 4 == 0 && year % 100 != 0) || year % 400 == 0;
    for (i = 1; i < month; i++)
        day += daytab[leap][i];
    return day;
}

static void month_day(int year, int yearday, int *pmonth, int *pday)
{
    int i, leap = (year % 4 == 0 && year % 100 != 0) || year % 400 == 0;
    for (i = 1; yearday > daytab[leap][i]; i++)
        yearday -= daytab[leap][i];
    *pmonth = i;
    *pday = yearday;
}

static const char *month_name(int n)
{
    return (n < 1 || n > 12) ? months[0] : months[n];
}

static int count_all(const char *const *list)
{
    int n = 0;
    while (*list)
        n += strlen(*list++);
    return n;
}

static void encode(char *s, const char *key)
{
    const char *k = key;
    for (; *s; ++s) {
        if (*s < 'a' || *s > 'z')
            continue;
        *s = (*s - 'a' + *k - 'a') % 26 + 'a';
        if (*++k == '\0')
            k = key;
    }
}

int main(void)
{
    static const char *const list[] = { "one", "three", "fifteen", 0 };
    char text[] = "attack at dawn, not before";
    const char **argv, *words[4];
    int m, d, i = 0;

    month_day(2024, day_of_year(2024, 12, 31), &m, &d);
    printf("%s %d\n", month_name(m), d);
    month_day(1900, 60, &m, &d);
    printf("%s %d %s\n", month_name(m), d, month_name(13));
    printf("%d\n", count_all(list));
    encode(text, "lemon");
    puts(text);
    for (argv = words; i < 3; i++)
        *argv++ = list[2 - i];
    *argv = NULL;
    for (argv = words; *argv; argv++)
        printf("%s%s", *argv, argv[1] ? "," : "\n");
    return (*words)[2] + *words[1];
}
