/* Stands in for the compiler's own header, which the toolchain's clang comes without. */
#define bool _Bool
#define true 1
#define false 0
