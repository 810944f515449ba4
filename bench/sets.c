/* sets.c - see sets.h. The Makefile says what there is: BASE_CPU, the processor of the archive and of plain C; WITH_V3 where plain C is
 * compiled for x86-64-v3 too, WITH_V3_LIBRARY where there is an archive for it, WITH_SECOND for a second compiler, WITH_OLD for another
 * archive of the library. */
#include "sets.h"

#include "plain.h"

#include <stdio.h>
#include <string.h>

#ifdef WITH_OLD
#include "old_calls.h"
#endif

struct calls sets[MOST_SETS];
size_t set_count;

#define TEXT(words) #words
#define TEXT_OF(macro) TEXT(macro)

const char *cpu_name(enum cpu cpu) { return cpu == BASE ? TEXT_OF(BASE_CPU) : "x86-64-v3"; }

static bool is_clang(const char *compiler) { return strstr(compiler, "lang") != NULL; }
static const char *made_by(const char *compiler) { return is_clang(compiler) ? "plain C, clang" : "plain C, gcc"; }
static const char *in_passes_by(const char *compiler) { return is_clang(compiler) ? "in passes, clang" : "in passes, gcc"; }

static bool runs(enum cpu cpu) {
#ifdef WITH_V3
    return cpu == BASE || (__builtin_cpu_supports("avx2") && __builtin_cpu_supports("bmi2") && __builtin_cpu_supports("fma"));
#else
    return cpu == BASE;
#endif
}

static void add(struct calls set) {
    if (runs(set.cpu))
        sets[set_count++] = set;
}

#define CALLS(who) who##_intake, who##_post, who##_edit, who##_write, false, false, false
#define ADD_PLAIN(name, cpu) add((struct calls){made_by(name##_compiler()), cpu, CALLS(name)})
#define ADD_IN_PASSES(name, cpu) add((struct calls){in_passes_by(name##_compiler()), cpu, CALLS(name)})

void find_sets(void) {
    add((struct calls){"library", BASE, CALLS(dted)});
#ifdef WITH_V3_LIBRARY
    add((struct calls){"library", V3, CALLS(v3_dted)});
#endif
    ADD_PLAIN(plain, BASE);
#ifdef WITH_V3
    ADD_PLAIN(plain_v3, V3);
#endif
#ifdef WITH_SECOND
    ADD_PLAIN(second, BASE);
#endif
#if defined WITH_SECOND && defined WITH_V3
    ADD_PLAIN(second_v3, V3);
#endif
    ADD_IN_PASSES(passes, BASE);
#ifdef WITH_V3
    ADD_IN_PASSES(passes_v3, V3);
#endif
#ifdef WITH_OLD
    add((struct calls){"other archive", BASE, OLD(intake), OLD(post), OLD(edit), OLD(write), OLD_IS_YEARLESS, true, false});
#endif
}

void print_compilers(void) {
    printf("plain C: %s -O3", plain_compiler());
#ifdef WITH_SECOND
    printf(", and %s -O3", second_compiler());
#else
    printf("; a second compiler is left out, there is none");
#endif
    printf("\n");
#ifndef WITH_V3
    printf("x86-64-v3: left out, all is for %s alone\n", cpu_name(BASE));
#else
    if (!runs(V3))
        printf("x86-64-v3: left out, this processor does not run it\n");
#ifndef WITH_V3_LIBRARY
    else
        printf("x86-64-v3: plain C alone, there is no archive for it: ARCHIVE_V3=path\n");
#endif
#endif
}
