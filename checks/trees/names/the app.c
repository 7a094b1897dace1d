#include <stdio.h>

#include "the header.h"

int main(void) {
  printf("%s, %s\n", TEXT, HEADER);
}
