"""What a C file has that takes proved machine code where the compiler makes code for a machine that it has it for, and C elsewhere: CHOICE,
which stands before all else, says which by a macro, and `code` is the machine code as text, each machine's behind its macro."""

import as_text

# The macro of each machine whose code a file has.
MACHINES = {"x86-64-v2": "MACHINE_X86_64_V2", "x86-64": "MACHINE_X86_64", "aarch64": "MACHINE_AARCH64"}

CHOICE = """\
/*
 * WHICH CODE THIS IS: the proved code's own machine code, which is below as text, where the compiler makes code for x86-64, x86-64-v2 or
 * aarch64 on Linux; the C that it was translated to everywhere else, and where TCPCORE_PORTABLE is defined. That is taken, too, where
 * machine code would break what the compiler was asked for: without vector registers; where a tool has to see each store (MemorySanitizer);
 * where an indirect jump may lead to marked places alone (BTI of aarch64); where x18 of aarch64 is somebody else's (Android, and shadow call
 * stacks); and where code may lie anywhere (the large code model). No macro says that a compiler was asked to leave other registers alone
 * (-ffixed-..), or for another convention (-mabi=ms): who asks for that defines TCPCORE_PORTABLE.
 */
#ifdef __has_feature
#if __has_feature(memory_sanitizer) || __has_feature(shadow_call_stack)
#define MACHINE_IS_UNFIT
#endif
#endif
#if defined(__GNUC__) && !defined(__TINYC__) && defined(__linux__) && defined(__ELF__) && defined(__SIZEOF_POINTER__) && \\
    !defined(__code_model_large__) && !defined(MACHINE_IS_UNFIT) && !defined(TCPCORE_PORTABLE)
#if __SIZEOF_POINTER__ == 8 && defined(__x86_64__) && defined(__SSE2__)
#if defined(__SSSE3__) && defined(__SSE4_2__) && defined(__POPCNT__)
#define MACHINE_X86_64_V2
#define MACHINE_CODE "x86-64-v2 machine code"
#else
#define MACHINE_X86_64
#define MACHINE_CODE "x86-64 machine code"
#endif
#elif __SIZEOF_POINTER__ == 8 && defined(__aarch64__) && defined(__AARCH64EL__) && defined(__ARM_NEON) && \\
    !defined(__ARM_FEATURE_BTI_DEFAULT) && !defined(__AARCH64_CMODEL_LARGE__) && !defined(__ANDROID__)
#define MACHINE_AARCH64
#define MACHINE_CODE "aarch64 machine code"
#endif
#endif

"""
HEAD = """\
/*
 * THE MACHINE CODE, section by section, as it lies in the object that the proof ended with, with its symbols and relocations. What an
 * assembler makes of it is that object's bytes (c/machine/test.sh). A C string may be longer than C99 says for gcc and clang.
 */
#pragma GCC diagnostic push
#pragma GCC diagnostic ignored "-Woverlength-strings"
"""
END = """\
#pragma GCC diagnostic pop

"""


def code(folder, file, roots):
    """The machine code of these functions, of the library FOLDER/MACHINE/FILE of each machine."""
    lines = [HEAD]
    for number, (machine, macro) in enumerate(MACHINES.items()):
        lines += [f"#{'el' if number else ''}if defined({macro})\n", as_text.statement(f"{folder}/{machine}/{file}", "tcp", roots)]
    return "".join([*lines, "#endif\n", END])
