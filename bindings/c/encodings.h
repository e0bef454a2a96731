/* The encodings by their numbers, for encoding_rs.c.
 *
 * Written by scripts/make-sources from data/templates: change the text there, and not this file.
 */
static const struct Encoding_ encodings[] = {
    {0},
    {1},
    {2},
    {3},
    {4},
    {5},
    {6},
    {7},
    {8},
    {9},
    {10},
    {11},
    {12},
    {13},
    {14},
    {15},
    {16},
    {17},
    {18},
    {19},
    {20},
    {21},
    {22},
    {23},
    {24},
    {25},
    {26},
    {27},
    {28},
    {29},
    {30},
    {31},
    {32},
    {33},
    {34},
    {35},
    {36},
    {37},
    {38},
    {39},
};

const Encoding *const UTF_8_ENCODING = &encodings[0];
const Encoding *const IBM866_ENCODING = &encodings[1];
const Encoding *const ISO_8859_2_ENCODING = &encodings[2];
const Encoding *const ISO_8859_3_ENCODING = &encodings[3];
const Encoding *const ISO_8859_4_ENCODING = &encodings[4];
const Encoding *const ISO_8859_5_ENCODING = &encodings[5];
const Encoding *const ISO_8859_6_ENCODING = &encodings[6];
const Encoding *const ISO_8859_7_ENCODING = &encodings[7];
const Encoding *const ISO_8859_8_ENCODING = &encodings[8];
const Encoding *const ISO_8859_8_I_ENCODING = &encodings[9];
const Encoding *const ISO_8859_10_ENCODING = &encodings[10];
const Encoding *const ISO_8859_13_ENCODING = &encodings[11];
const Encoding *const ISO_8859_14_ENCODING = &encodings[12];
const Encoding *const ISO_8859_15_ENCODING = &encodings[13];
const Encoding *const ISO_8859_16_ENCODING = &encodings[14];
const Encoding *const KOI8_R_ENCODING = &encodings[15];
const Encoding *const KOI8_U_ENCODING = &encodings[16];
const Encoding *const MACINTOSH_ENCODING = &encodings[17];
const Encoding *const WINDOWS_874_ENCODING = &encodings[18];
const Encoding *const WINDOWS_1250_ENCODING = &encodings[19];
const Encoding *const WINDOWS_1251_ENCODING = &encodings[20];
const Encoding *const WINDOWS_1252_ENCODING = &encodings[21];
const Encoding *const WINDOWS_1253_ENCODING = &encodings[22];
const Encoding *const WINDOWS_1254_ENCODING = &encodings[23];
const Encoding *const WINDOWS_1255_ENCODING = &encodings[24];
const Encoding *const WINDOWS_1256_ENCODING = &encodings[25];
const Encoding *const WINDOWS_1257_ENCODING = &encodings[26];
const Encoding *const WINDOWS_1258_ENCODING = &encodings[27];
const Encoding *const X_MAC_CYRILLIC_ENCODING = &encodings[28];
const Encoding *const GBK_ENCODING = &encodings[29];
const Encoding *const GB18030_ENCODING = &encodings[30];
const Encoding *const BIG5_ENCODING = &encodings[31];
const Encoding *const EUC_JP_ENCODING = &encodings[32];
const Encoding *const ISO_2022_JP_ENCODING = &encodings[33];
const Encoding *const SHIFT_JIS_ENCODING = &encodings[34];
const Encoding *const EUC_KR_ENCODING = &encodings[35];
const Encoding *const REPLACEMENT_ENCODING = &encodings[36];
const Encoding *const UTF_16BE_ENCODING = &encodings[37];
const Encoding *const UTF_16LE_ENCODING = &encodings[38];
const Encoding *const X_USER_DEFINED_ENCODING = &encodings[39];
