// One call of each finalist on a few books, for callgrind to count (./bench count).
#pragma once

int count();
