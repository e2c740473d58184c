#include "forms.h"

const struct form forms[FORMS] = {
    { 0x0000, "NOOP", "", "", "" },
    { 0x0001, "EODL", "", "", "" },
    { 0x0002, "ADIV", "lv", "", "23" },
    { 0x0003, "ADVV", "vv", "", "23" },
    { 0x0006, "ANDIV", "lv", "", "23" },
    { 0x0007, "ANDVV", "vv", "", "23" },
    { 0x0090, "ORIV", "lv", "", "23" },
    { 0x0091, "ORVV", "vv", "", "23" },
    { 0x0080, "MLTV", "vv", "", "23" },
    { 0x0045, "DIVV", "vv", "", "236" },
    { 0x0081, "MODV", "vv", "", "236" },
    { 0x005D, "INCV", "v", "", "23" },
    { 0x0042, "DCRV", "v", "", "23" },
    { 0x0065, "LDIV", "wv", "", "23" },
    { 0x0066, "LDIVL", "lv", "", "23" },
    { 0x0071, "LDVV", "vv", "", "23" },
    { 0x0033, "CPIV", "lv", "", "23" },
    { 0x0034, "CPVV", "vv", "", "23" },
    { 0x010A, "JUMPA", "ca", "", "247" },
    { 0x010C, "JUMPR", "cr", "", "247" },
    { 0x000E, "CAL", "a", "", "278" },
    { 0x000F, "CALV", "i", "a", "2378" },
    { 0x010E, "CALR", "r", "", "278" },
    { 0x010F, "CALRV", "i", "r", "2378" },
    { 0x00B9, "RTRN", "", "", "9" },
    { 0x00B7, "RPT", "P", "", "248" },
    { 0x004F, "ERPT", "", "", "9" },
    { 0x0016, "CLIPMODE", "m", "", "24" },
    { 0x0017, "CLIPMODEV", "i", "m", "234" },
    { 0x0018, "CLIPWIN", "xyxy", "", "2" },
    { 0x0019, "CLIPWINV", "i", "xyxy", "235" },
    { 0x001F, "COLORF", "o", "", "2" },
    { 0x0020, "COLORFV", "i", "o", "23" },
    { 0x0082, "MOVETO", "xy", "", "2" },
    { 0x0083, "MOVETOV", "i", "xy", "235" },
    { 0x0084, "MOVETOR", "dd", "", "25" },
    { 0x0085, "MOVETORV", "i", "dd", "235" },
    { 0x009E, "PIXEL", "xy", "", "2" },
    { 0x009F, "PIXELV", "i", "xy", "235" },
    { 0x0150, "PIXELC", "xyo", "", "2" },
    { 0x0151, "PIXELCV", "i", "xyo", "235" },
    { 0x0074, "LINE", "tefgj", "", "24" },
    { 0x0075, "LINEV", "i", "tefgj", "2345" },
    { 0x007C, "LINETO", "tgj", "", "24" },
    { 0x007D, "LINETOV", "i", "tgj", "2345" },
    { 0x007E, "LINETOR", "tsz", "", "245" },
    { 0x007F, "LINETORV", "i", "tsz", "2345" },
    { 0x0078, "LINEPATN", "p", "", "2" },
    { 0x0079, "LINEPATNV", "i", "p", "23" },
    { 0x0012, "CIR", "uhkq", "", "245" },
    { 0x0013, "CIRV", "i", "uhkq", "2345" },
    { 0x0014, "CIRS", "uhkq", "", "245" },
    { 0x0015, "CIRSV", "i", "uhkq", "2345" },
    { 0x0100, "XYORG", "bn", "", "2" },
    { 0x0101, "XYORGV", "i", "bn", "235" },
    { 0x0188, "CLRWIN", "ow", "", "2" },
    { 0x0189, "CLRWINV", "i", "ow", "23" },
};

int is_long(char operand)
{
    return operand == 'l' || operand == 'a' || operand == 'o' || operand == 'p';
}

uint32_t form_words(const struct form *form)
{
    uint32_t words = 1;

    for (const char *operand = form->operands; *operand; operand++)
        words += is_long(*operand) ? 2 : 1;
    return words;
}

int form_of(uint16_t opcode)
{
    for (int i = 0; i < FORMS; i++)
        if (forms[i].opcode == opcode)
            return i;
    return -1;
}
