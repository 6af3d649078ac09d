// What lies between a call of count_begins and one of count_ends is counted: callgrind is told by a request, and a log
// of addresses tells it by the addresses of the two.
#pragma once
#include <valgrind/callgrind.h>

extern "C" {
[[gnu::noinline]] inline void count_begins() { CALLGRIND_TOGGLE_COLLECT; }
[[gnu::noinline]] inline void count_ends() { CALLGRIND_TOGGLE_COLLECT; }
}
