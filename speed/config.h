// dav1d's configuration: C alone, unless HAVE_ASM says otherwise.
#define ARCH_AARCH64 0
#define ARCH_ARM 0
#define ARCH_PPC64LE 0
#define ARCH_X86 1
#define ARCH_X86_32 0
#define ARCH_X86_64 1
#define CONFIG_16BPC 1
#define CONFIG_8BPC 1
#define CONFIG_LOG 0
#define ENDIANNESS_BIG 0
#ifndef HAVE_ASM
#define HAVE_ASM 0
#endif
#define HAVE_POSIX_MEMALIGN 1
