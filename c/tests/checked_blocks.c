/* What reads blocks, compiled with the checks of the program that it is linked into, where it stands before that of the library. */
#include "beside_blocks.h"
