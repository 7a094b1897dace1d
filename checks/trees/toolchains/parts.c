extern const char part[];
const char part[] = PART;
