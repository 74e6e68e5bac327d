/* Parses a text `COUNT` times: parses TEXT COUNT. */
#include <litrs.h>
#include <stdlib.h>
#include <string.h>

int main(int count, char **words) {
    litrs_answer answer;
    const size_t len = count == 3 ? strlen(words[1]) : 0;
    long left = count == 3 ? strtol(words[2], NULL, 10) : 0;
    for (; left > 0; left--)
        litrs_parse_into((const uint8_t *)words[1], len, &answer);
    return count == 3 ? 0 : 1;
}
