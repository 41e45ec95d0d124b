# Functions are aligned, so that a loop's speed does not hang on where the linker puts it.
flags="-std=c11 -D_DEFAULT_SOURCE -D_POSIX_C_SOURCE=200809L -O3 -falign-functions=64 -Wall -Wextra -Iinclude"
