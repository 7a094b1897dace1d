#include <iostream>

#include "greeting.h"

int main(int count, char** words) {
  std::cout << greeting(count > 1 ? words[1] : "world") << std::endl;
}
