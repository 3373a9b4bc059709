#include "text.h"

bool is_blank(char c)
{
    return c == ' ' || c == '\t';
}

char capital(char c)
{
    return c >= 'a' && c <= 'z' ? (char)(c - 'a' + 'A') : c;
}
