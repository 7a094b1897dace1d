#include "counting.h"

int count_letters(const char* text) {
  int count = 0;
  for (; *text; text++) {
    if ((*text >= 'A' && *text <= 'Z') || (*text >= 'a' && *text <= 'z')) {
      count++;
    }
  }
  return count;
}
