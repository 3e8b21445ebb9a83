#define BY_TABLE
#include "plain.c"
