#define HEADER "a header"
