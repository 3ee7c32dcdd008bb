/* Tells an emulator how many bytes a line of the instruction cache has, whatever the machine says: LINE in the environment, or 64. Some Arm
   machines say 4096, and the emulator then gives each piece of code between two branches pages of its own. Loaded before the emulator's
   libraries:

       cc -O2 -shared -fPIC bench/line.c -o target/bench/line.so
       EMULATOR=/usr/bin/qemu-x86_64 EMULATOR_PRELOAD=target/bench/line.so bench/run */

#define _GNU_SOURCE
#include <dlfcn.h>
#include <stdlib.h>
#include <unistd.h>

long sysconf(int name)
{
    long (*told)(int) = (long (*)(int))dlsym(RTLD_NEXT, "sysconf");
    const char *line = getenv("LINE");
    return name != _SC_LEVEL1_ICACHE_LINESIZE ? told(name) : line ? atol(line) : 64;
}
