// Linked into a program that `rt try` builds below the folder BUILT_BELOW: before it runs there,
// its executable is linked to KEPT, since `rt try` removes it. Wherever else the executable runs,
// this does nothing.
//
// It is compiled by the toolchain's own compiler, for which a machine need have no header.
extern int link(const char *from, const char *to);
extern int strncmp(const char *one, const char *other, unsigned long count);

#if !defined BUILT_BELOW || !defined KEPT
#error "BUILT_BELOW and KEPT name a folder and a file"
#endif

// `rt try` starts a program by its whole path.
__attribute__((constructor)) static void keep_program(int count, char **words)
{
    if (count > 0 && strncmp(words[0], BUILT_BELOW, sizeof BUILT_BELOW - 1) == 0) {
        link(words[0], KEPT);
    }
}
