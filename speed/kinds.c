#include "kinds.h"

const struct kind kinds[KINDS] = {
    {4323, false, SMALLER, SMALLER_TEXT, {SMALLER, SMALLER, SMALLER}},
    {4325, true, SMALLER, SMALLER_TEXT, {SMALLER, SMALLER, SMALLER}},
    {4283, false, LARGER, LARGER_TEXT, {LARGER, 0x3000, 0x2000}},
    {4285, true, LARGER, LARGER_TEXT, {LARGER, 0x3000, 0x2000}},
};

const struct kind *kind_of(uint16_t part)
{
    for (int i = 0; i < KINDS; i++)
        if (kinds[i].part == part)
            return &kinds[i];
    return NULL;
}
