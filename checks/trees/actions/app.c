#include <stdio.h>

#include "names.h"

extern const char one[], two[];

int main(void) {
  printf("%s: %s %s\n", NAMES, one, two);
}
