#include "greeting.h"

#include "counting.h"

std::string greeting(const std::string& name) {
  return GREETING + name + ", of " + std::to_string(count_letters(name.c_str())) + " letters.";
}
