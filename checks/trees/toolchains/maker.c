#include <stdio.h>

extern const char part[];

int main(void) {
  printf("#define MADE_BY \"%s\"\n", part);
}
