#pragma once

#ifdef __cplusplus
extern "C" {
#endif

/* How many bytes of a text are letters of the English alphabet. */
int count_letters(const char* text);

#ifdef __cplusplus
}
#endif
