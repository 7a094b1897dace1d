#include <stdio.h>

#include "made.h"

extern const char part[];

int main(void) {
  printf("%s, made by %s\n", part, MADE_BY);
}
