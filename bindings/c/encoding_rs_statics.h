/* The names of types and the encodings, for encoding_rs.h, which includes it.
 *
 * Written by scripts/make-sources from data/templates: change the text there, and not this file.
 */
#ifndef ENCODING_RS_STATICS_H
#define ENCODING_RS_STATICS_H

/* C++ code may define these macros as classes of its own before it includes this. */
#ifndef ENCODING_RS_ENCODING
#define ENCODING_RS_ENCODING Encoding
typedef struct Encoding_ Encoding;
#endif
#ifndef ENCODING_RS_NOT_NULL_CONST_ENCODING_PTR
#define ENCODING_RS_NOT_NULL_CONST_ENCODING_PTR const ENCODING_RS_ENCODING *
#endif
#ifndef ENCODING_RS_DECODER
#define ENCODING_RS_DECODER Decoder
typedef struct Decoder_ Decoder;
#endif
#ifndef ENCODING_RS_ENCODER
#define ENCODING_RS_ENCODER Encoder
typedef struct Encoder_ Encoder;
#endif

/* All input is read. */
#define INPUT_EMPTY 0
/* The next output does not fit. */
#define OUTPUT_FULL 0xFFFFFFFF
/* The decoder is finished, and nothing is done. */
#define DECODER_FINISHED 0xFFFFFFFE
/* The text is not well-formed UTF-8, and nothing is done. */
#define TEXT_NOT_UTF8 0xFFFFFFFD

/* The length in bytes of the longest name. */
#define ENCODING_NAME_MAX_LENGTH 14
/* UTF-8 (Encoding Standard 8.1) */
extern ENCODING_RS_NOT_NULL_CONST_ENCODING_PTR const UTF_8_ENCODING;
/* IBM866 (Encoding Standard 9.1) */
extern ENCODING_RS_NOT_NULL_CONST_ENCODING_PTR const IBM866_ENCODING;
/* ISO-8859-2 (Encoding Standard 9.1) */
extern ENCODING_RS_NOT_NULL_CONST_ENCODING_PTR const ISO_8859_2_ENCODING;
/* ISO-8859-3 (Encoding Standard 9.1) */
extern ENCODING_RS_NOT_NULL_CONST_ENCODING_PTR const ISO_8859_3_ENCODING;
/* ISO-8859-4 (Encoding Standard 9.1) */
extern ENCODING_RS_NOT_NULL_CONST_ENCODING_PTR const ISO_8859_4_ENCODING;
/* ISO-8859-5 (Encoding Standard 9.1) */
extern ENCODING_RS_NOT_NULL_CONST_ENCODING_PTR const ISO_8859_5_ENCODING;
/* ISO-8859-6 (Encoding Standard 9.1) */
extern ENCODING_RS_NOT_NULL_CONST_ENCODING_PTR const ISO_8859_6_ENCODING;
/* ISO-8859-7 (Encoding Standard 9.1) */
extern ENCODING_RS_NOT_NULL_CONST_ENCODING_PTR const ISO_8859_7_ENCODING;
/* ISO-8859-8 (Encoding Standard 9.1) */
extern ENCODING_RS_NOT_NULL_CONST_ENCODING_PTR const ISO_8859_8_ENCODING;
/* ISO-8859-8-I (Encoding Standard 9.1) */
extern ENCODING_RS_NOT_NULL_CONST_ENCODING_PTR const ISO_8859_8_I_ENCODING;
/* ISO-8859-10 (Encoding Standard 9.1) */
extern ENCODING_RS_NOT_NULL_CONST_ENCODING_PTR const ISO_8859_10_ENCODING;
/* ISO-8859-13 (Encoding Standard 9.1) */
extern ENCODING_RS_NOT_NULL_CONST_ENCODING_PTR const ISO_8859_13_ENCODING;
/* ISO-8859-14 (Encoding Standard 9.1) */
extern ENCODING_RS_NOT_NULL_CONST_ENCODING_PTR const ISO_8859_14_ENCODING;
/* ISO-8859-15 (Encoding Standard 9.1) */
extern ENCODING_RS_NOT_NULL_CONST_ENCODING_PTR const ISO_8859_15_ENCODING;
/* ISO-8859-16 (Encoding Standard 9.1) */
extern ENCODING_RS_NOT_NULL_CONST_ENCODING_PTR const ISO_8859_16_ENCODING;
/* KOI8-R (Encoding Standard 9.1) */
extern ENCODING_RS_NOT_NULL_CONST_ENCODING_PTR const KOI8_R_ENCODING;
/* KOI8-U (Encoding Standard 9.1) */
extern ENCODING_RS_NOT_NULL_CONST_ENCODING_PTR const KOI8_U_ENCODING;
/* macintosh (Encoding Standard 9.1) */
extern ENCODING_RS_NOT_NULL_CONST_ENCODING_PTR const MACINTOSH_ENCODING;
/* windows-874 (Encoding Standard 9.1) */
extern ENCODING_RS_NOT_NULL_CONST_ENCODING_PTR const WINDOWS_874_ENCODING;
/* windows-1250 (Encoding Standard 9.1) */
extern ENCODING_RS_NOT_NULL_CONST_ENCODING_PTR const WINDOWS_1250_ENCODING;
/* windows-1251 (Encoding Standard 9.1) */
extern ENCODING_RS_NOT_NULL_CONST_ENCODING_PTR const WINDOWS_1251_ENCODING;
/* windows-1252 (Encoding Standard 9.1) */
extern ENCODING_RS_NOT_NULL_CONST_ENCODING_PTR const WINDOWS_1252_ENCODING;
/* windows-1253 (Encoding Standard 9.1) */
extern ENCODING_RS_NOT_NULL_CONST_ENCODING_PTR const WINDOWS_1253_ENCODING;
/* windows-1254 (Encoding Standard 9.1) */
extern ENCODING_RS_NOT_NULL_CONST_ENCODING_PTR const WINDOWS_1254_ENCODING;
/* windows-1255 (Encoding Standard 9.1) */
extern ENCODING_RS_NOT_NULL_CONST_ENCODING_PTR const WINDOWS_1255_ENCODING;
/* windows-1256 (Encoding Standard 9.1) */
extern ENCODING_RS_NOT_NULL_CONST_ENCODING_PTR const WINDOWS_1256_ENCODING;
/* windows-1257 (Encoding Standard 9.1) */
extern ENCODING_RS_NOT_NULL_CONST_ENCODING_PTR const WINDOWS_1257_ENCODING;
/* windows-1258 (Encoding Standard 9.1) */
extern ENCODING_RS_NOT_NULL_CONST_ENCODING_PTR const WINDOWS_1258_ENCODING;
/* x-mac-cyrillic (Encoding Standard 9.1) */
extern ENCODING_RS_NOT_NULL_CONST_ENCODING_PTR const X_MAC_CYRILLIC_ENCODING;
/* GBK (Encoding Standard 10.1) */
extern ENCODING_RS_NOT_NULL_CONST_ENCODING_PTR const GBK_ENCODING;
/* gb18030 (Encoding Standard 10.2) */
extern ENCODING_RS_NOT_NULL_CONST_ENCODING_PTR const GB18030_ENCODING;
/* Big5 (Encoding Standard 11.1) */
extern ENCODING_RS_NOT_NULL_CONST_ENCODING_PTR const BIG5_ENCODING;
/* EUC-JP (Encoding Standard 12.1) */
extern ENCODING_RS_NOT_NULL_CONST_ENCODING_PTR const EUC_JP_ENCODING;
/* ISO-2022-JP (Encoding Standard 12.2) */
extern ENCODING_RS_NOT_NULL_CONST_ENCODING_PTR const ISO_2022_JP_ENCODING;
/* Shift_JIS (Encoding Standard 12.3) */
extern ENCODING_RS_NOT_NULL_CONST_ENCODING_PTR const SHIFT_JIS_ENCODING;
/* EUC-KR (Encoding Standard 13.1) */
extern ENCODING_RS_NOT_NULL_CONST_ENCODING_PTR const EUC_KR_ENCODING;
/* replacement (Encoding Standard 14.1) */
extern ENCODING_RS_NOT_NULL_CONST_ENCODING_PTR const REPLACEMENT_ENCODING;
/* UTF-16BE (Encoding Standard 14.3) */
extern ENCODING_RS_NOT_NULL_CONST_ENCODING_PTR const UTF_16BE_ENCODING;
/* UTF-16LE (Encoding Standard 14.4) */
extern ENCODING_RS_NOT_NULL_CONST_ENCODING_PTR const UTF_16LE_ENCODING;
/* x-user-defined (Encoding Standard 14.5) */
extern ENCODING_RS_NOT_NULL_CONST_ENCODING_PTR const X_USER_DEFINED_ENCODING;

#endif
