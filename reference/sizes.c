#include "sizes.h"

/* From 01's and 02's operands: a long is two words, any other operand one. */
size_t words_of(uint16_t opcode)
{
    switch (opcode) {
    case 0x0000: case 0x0001: case 0x00B9: case 0x004F:     /* NOOP, EODL, RTRN, ERPT */
        return 1;
    case 0x00B7:                                            /* RPT: count */
    case 0x000F: case 0x010E: case 0x010F:                  /* CALV, CALRV: V; CALR: word */
    case 0x005D: case 0x0042:                               /* INCV, DCRV: V */
    case 0x0016: case 0x0017: case 0x0019: case 0x0020:     /* CLIPMODE mode; CLIPMODEV, CLIPWINV, COLORFV: V or Vi */
    case 0x0083: case 0x0085: case 0x009F: case 0x0151:     /* MOVETOV, MOVETORV, PIXELV, PIXELCV: Vi */
    case 0x0075: case 0x007D: case 0x007F: case 0x0189:     /* LINEV, LINETOV, LINETORV, CLRWINV: Vi */
    case 0x0013: case 0x0015: case 0x0079: case 0x0101:     /* CIRV, CIRSV, LINEPATNV, XYORGV: V or Vi */
        return 2;
    case 0x000E:                                            /* CAL: long */
    case 0x010C:                                            /* JUMPR: condition word */
    case 0x0003: case 0x0007: case 0x0091: case 0x0080:     /* ADVV, ANDVV, ORVV, MLTV: Vs Vd */
    case 0x0045: case 0x0081: case 0x0071: case 0x0034:     /* DIVV, MODV, LDVV, CPVV: Vs Vd */
    case 0x0065:                                            /* LDIV: word Vd */
    case 0x001F: case 0x0078:                               /* COLORF, LINEPATN: long */
    case 0x0082: case 0x0084: case 0x009E: case 0x0100:     /* MOVETO, MOVETOR, PIXEL, XYORG: x y */
        return 3;
    case 0x010A:                                            /* JUMPA: condition long */
    case 0x0002: case 0x0006: case 0x0090:                  /* ADIV, ANDIV, ORIV: long Vd */
    case 0x0066: case 0x0033:                               /* LDIVL, CPIV: long Vd */
    case 0x007C: case 0x007E:                               /* LINETO, LINETOR: type x y */
    case 0x0188:                                            /* CLRWIN: long word */
        return 4;
    case 0x0018:                                            /* CLIPWIN: x0 y0 x1 y1 */
    case 0x0150:                                            /* PIXELC: x y long */
    case 0x0012: case 0x0014:                               /* CIR, CIRS: type x y radius */
        return 5;
    case 0x0074:                                            /* LINE: type x0 y0 x1 y1 */
        return 6;
    default:
        return 0;
    }
}
