/* Writes the texts of crates/cc_arith/src/tests/expected.rt, as this machine's C compiler has them.
 *
 *     cc -fsanitize=undefined -fno-sanitize-recover=all -w -o /tmp/arithmetic-table bench/arithmetic-table.c
 *     /tmp/arithmetic-table > crates/cc_arith/src/tests/expected.rt
 *
 * Each operator runs in a process of its own. Where C leaves it undefined, the sanitizer ends that process,
 * and its message says which case it is: U1 overflow, U2 zero divisor, U3 count of a shift, U4 shift of a
 * negative value or out of range. */
#include <limits.h>
#include <signal.h>
#include <stdio.h>
#include <stdlib.h>
#include <string.h>
#include <sys/wait.h>
#include <unistd.h>

typedef _Bool Bool;
typedef char Char;
typedef signed char SChar;
typedef unsigned char UChar;
typedef short Short;
typedef unsigned short UShort;
typedef int Int;
typedef unsigned int UInt;
typedef long Long;
typedef unsigned long ULong;
typedef long long LLong;
typedef unsigned long long ULLong;
typedef __int128 Wide;

#define NAME(e) _Generic((e), int: "Int", unsigned int: "UInt", long: "Long", unsigned long: "ULong", \
                         long long: "LLong", unsigned long long: "ULLong")

static void put(Wide v) {
    char text[48];
    int at = 47;
    unsigned __int128 n = v < 0 ? -(unsigned __int128)v : (unsigned __int128)v;
    text[at] = 0;
    do text[--at] = '0' + (int)(n % 10); while (n /= 10);
    if (v < 0) text[--at] = '-';
    printf("%s", text + at);
}

/* 0 in the child, whose value is to be printed; 1 in the parent, once the child is done */
static int cell(void) {
    int out[2], err[2], status;
    char text[600], why[600];
    ssize_t n, m;
    fflush(stdout);
    if (pipe(out) || pipe(err)) exit(1);
    pid_t child = fork();
    if (child == 0) {
        dup2(out[1], 1);
        dup2(err[1], 2);
        return 0;
    }
    close(out[1]);
    close(err[1]);
    n = read(out[0], text, sizeof text - 1);
    m = read(err[0], why, sizeof why - 1);
    text[n < 0 ? 0 : n] = 0;
    why[m < 0 ? 0 : m] = 0;
    waitpid(child, &status, 0);
    close(out[0]);
    close(err[0]);
    if (status == 0) printf("%s", text);
    else if (strstr(why, "division by zero")) printf("U2");
    else if (strstr(why, "shift exponent")) printf("U3");
    else if (strstr(why, "left shift of")) printf("U4");
    else if (strstr(why, "overflow") || strstr(why, "cannot be represented")) printf("U1");
    else if (WIFSIGNALED(status) && WTERMSIG(status) == SIGFPE) printf("U2"); /* two _Bool, which the sanitizer leaves out */
    else printf("?%s?", why);
    return 1;
}

#define CELL(e) printf(" "); if (!cell()) { __auto_type value = (e); put((Wide)value); fflush(stdout); _exit(0); }

#define OPERANDS(J, x, L, y) printf("%s ", #J); put((Wide)x); printf(" %s ", #L); put((Wide)y);

#define BINARY(J, a, L, b) do { volatile J x = (J)(a); volatile L y = (L)(b); OPERANDS(J, x, L, y) \
    CELL(x + y) CELL(x - y) CELL(x * y) CELL(x / y) CELL(x % y) CELL(x & y) CELL(x | y) CELL(x ^ y) \
    CELL(x << y) CELL(x >> y) CELL(x < y) CELL(x <= y) CELL(x > y) CELL(x >= y) CELL(x == y) CELL(x != y) \
    printf("\n"); } while (0);

#define UNARY(J, a) do { volatile J x = (J)(a); printf("%s ", #J); put((Wide)x); \
    CELL(+x) CELL(-x) CELL(~x) CELL(!x) printf("\n"); } while (0);

#define CONVERT(v) do { volatile Wide x = (v); put(x); \
    CELL((Bool)x) CELL((Char)x) CELL((SChar)x) CELL((UChar)x) CELL((Short)x) CELL((UShort)x) \
    CELL((Int)x) CELL((UInt)x) CELL((Long)x) CELL((ULong)x) CELL((LLong)x) CELL((ULLong)x) printf("\n"); } while (0);

#define KIND(J, low, high) do { printf("%s ", #J); put(low); printf(" "); put(high); \
    printf(" %s %s %s %s %s %s %s %s %s %s %s %s %s\n", NAME(+(J)0), \
    NAME((J)0 + (Bool)0), NAME((J)0 + (Char)0), NAME((J)0 + (SChar)0), NAME((J)0 + (UChar)0), \
    NAME((J)0 + (Short)0), NAME((J)0 + (UShort)0), NAME((J)0 + (Int)0), NAME((J)0 + (UInt)0), \
    NAME((J)0 + (Long)0), NAME((J)0 + (ULong)0), NAME((J)0 + (LLong)0), NAME((J)0 + (ULLong)0)); } while (0);

/* every kind with its ends */
#define EACH(f) f(Bool, 0, 1) f(Char, CHAR_MIN, CHAR_MAX) f(SChar, SCHAR_MIN, SCHAR_MAX) f(UChar, 0, UCHAR_MAX) \
    f(Short, SHRT_MIN, SHRT_MAX) f(UShort, 0, USHRT_MAX) f(Int, INT_MIN, INT_MAX) f(UInt, 0, UINT_MAX) \
    f(Long, LONG_MIN, LONG_MAX) f(ULong, 0, ULONG_MAX) f(LLong, LLONG_MIN, LLONG_MAX) f(ULLong, 0, ULLONG_MAX)

/* the ends, -1, 0 and 1, as far as they are values of the kind; and all pairs of these */
#define UNARIES(J, low, high) \
    UNARY(J, low) if (low) UNARY(J, -1) UNARY(J, 0) UNARY(J, 1) UNARY(J, high)
#define WITH(J, a, low, high) \
    BINARY(J, a, J, low) if (low) BINARY(J, a, J, -1) BINARY(J, a, J, 0) BINARY(J, a, J, 1) BINARY(J, a, J, high)
#define PAIRS(J, low, high) WITH(J, low, low, high) if (low) { WITH(J, -1, low, high) } \
    WITH(J, 0, low, high) WITH(J, 1, low, high) WITH(J, high, low, high)

/* -7 and 2 in two kinds; 1 and a count at the edge of a width */
#define MIXED(J, low, high) BINARY(J, -7, Int, 2) BINARY(J, -7, UInt, 2) BINARY(J, -7, Long, 2) \
    BINARY(J, -7, ULong, 2) BINARY(J, -7, LLong, 2) BINARY(J, -7, ULLong, 2)
#define COUNTS(J, low, high) BINARY(J, 1, UChar, 30) BINARY(J, 1, UChar, 31) BINARY(J, 1, UChar, 32) \
    BINARY(J, 1, UChar, 62) BINARY(J, 1, UChar, 63) BINARY(J, 1, UChar, 64)

#define TEXT(name, what, body) printf("\n// %s\npub(crate) const %s: &str = \"\\\n", what, name); body printf("\";\n");

int main(void) {
    printf("// Written by bench/arithmetic-table.c, built by a C compiler: not by this crate.\n");
    TEXT("KINDS", "A kind, its least and its greatest value, the promoted kind, and the common one with each kind.", EACH(KIND))
    TEXT("CONVERTED", "A number, and its value in each kind.",
        CONVERT(-1) CONVERT(0) CONVERT(1) CONVERT(2) CONVERT(127) CONVERT(128) CONVERT(-128) CONVERT(-129) CONVERT(255)
        CONVERT(256) CONVERT(32767) CONVERT(32768) CONVERT(-32769) CONVERT(65535) CONVERT(65536) CONVERT(INT_MAX)
        CONVERT(-(Wide)INT_MIN) CONVERT((Wide)INT_MIN - 1) CONVERT(UINT_MAX) CONVERT((Wide)UINT_MAX + 1) CONVERT(LONG_MAX)
        CONVERT(-(Wide)LONG_MIN) CONVERT((Wide)LONG_MIN - 1) CONVERT(ULONG_MAX) CONVERT((Wide)ULONG_MAX + 1))
    TEXT("UNARY", "A value of a kind, and what +, -, ~ and ! give.", EACH(UNARIES))
    TEXT("BINARY", "Two values, and what + - * / % & | ^ << >> < <= > >= == != give.", EACH(PAIRS) EACH(MIXED) EACH(COUNTS))
    return 0;
}
