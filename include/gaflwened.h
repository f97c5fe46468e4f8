/* gaflwened.h: workbooks of old Excel (BIFF5 to BIFF8, .xls), read from C.
 *
 * The caller owns all memory: it measures, makes arrays, and has them filled. There is no handle, no state between calls
 * and nothing to free, so calls of different threads never meet.
 *
 *   1. gaflwened_stream   the workbook's stream in a file (call it twice: first for its size)
 *   2. gaflwened_measure  how many sheets, names, cells, formulas, regions and bytes of text the stream holds
 *   3. gaflwened_read     fills arrays that are as long as that
 *   4. gaflwened_shown    on demand: what Excel shows of the cells of one sheet, as text
 *   5. gaflwened_hidden and six more, on demand: what stands beside the values (hidden rows and columns, how cells look,
 *      comments, hyperlinks, other workbooks)
 *
 * Link libxls_c.a and, by which it asks for memory, liblibc_c.a of the folder c of the Rattle kit. A call takes memory for its
 * own work and gives it back before it returns; where none is left it answers GAFLWENED_OUT_OF_MEMORY.
 *
 * What a caller owes: a pointer is never NULL and is aligned for its type, also where its length is 0; it points to as many
 * items as its length says; what a call writes to overlaps nothing else that the same call gets. What arrays for output hold before
 * a call doesn't matter. No call comes from a signal handler.
 *
 * Each call that can fail answers a code: GAFLWENED_OK (0), or the code of the fault that it also puts into *fault.
 * Everything is counted from 0. Every text is UTF-8 without a zero byte at its end.
 */
#ifndef GAFLWENED_H
#define GAFLWENED_H

#include <stddef.h>
#include <stdint.h>

#ifdef __cplusplus
extern "C" {
#endif

/* The version of this interface, which gaflwened_version answers. */
#define GAFLWENED_VERSION 1

/* ---- Codes ---------------------------------------------------------------------------------------------------------- */

enum {
    GAFLWENED_OK = 0,
    GAFLWENED_OUT_OF_MEMORY = 1,
    GAFLWENED_TOO_SHORT = 2,       /* an array is shorter than what it is to hold */
    GAFLWENED_NO_SUCH_SHEET = 3,   /* first: the index that the options ask for */
    GAFLWENED_OBFUSCATED = 4,      /* the stream's records are obfuscated with a password (XOR) */

    /* The first fault of a workbook's stream. */
    GAFLWENED_TOO_LARGE = 16,      /* the stream has more bytes than `first`, the limit */
    GAFLWENED_TOO_MANY_CELLS = 17, /* a sheet has more cells than `first`, the limit */
    GAFLWENED_CODE_PAGE = 18,      /* code page `first` isn't read */
    GAFLWENED_PASSWORD = 19,       /* the workbook is encrypted */
    GAFLWENED_LENGTH = 20,         /* the part `part` needs `first` bytes at least, and has `second` */
    GAFLWENED_UNRECOGNIZED = 21,   /* the byte `first` of the part `part` has no meaning */
    GAFLWENED_END_OF_STREAM = 22,  /* the stream ends inside the part `part` */
    GAFLWENED_STRING_CUT = 23,     /* a string of the string table ends inside its runs or its extension */
    GAFLWENED_OPERANDS = 24,       /* a token of a formula has too few operands */
    GAFLWENED_FORMULA = 25,        /* the tokens of a formula leave `first` values, and not one */
    GAFLWENED_FUNCTION = 26,       /* no function has the index `first` */
    GAFLWENED_ATTRIBUTE = 27,      /* no attribute of a formula has the number `first` */
    GAFLWENED_FORMAT = 28,         /* no number format has the identifier `first` */
    GAFLWENED_INPUT = 29,          /* a read of the source failed; no call here answers it */
    GAFLWENED_NAME = 30,           /* no sheet has a name that was asked for; no call here answers it */

    /* Why a file gives no workbook. */
    GAFLWENED_FILE_KIND = 48,      /* neither a compound file nor a workbook's stream; part: GAFLWENED_FILE_.. */
    GAFLWENED_NO_WORKBOOK = 49,    /* a compound file without a stream `Workbook` or `Book` */

    /* A damaged compound file; part: GAFLWENED_IN_.., the chain that is damaged; table: GAFLWENED_TABLE_.. */
    GAFLWENED_SIGNATURE = 64,
    GAFLWENED_HEADER_CUT = 65,     /* the file ends within the header, after `first` bytes */
    GAFLWENED_SECTOR_SHIFT = 66,   /* the sector shift is `first` */
    GAFLWENED_MINI_SHIFT = 67,     /* the mini sector shift is `first` */
    GAFLWENED_LOOP = 68,           /* the chain from sector `first` of the table comes back to itself */
    GAFLWENED_LEAVES = 69,         /* after sector `first` of the table comes `second`, for which it has no entry */
    GAFLWENED_BEGINS_OUTSIDE = 70, /* a chain of the table begins with `second`, for which it has no entry */
    GAFLWENED_CHAIN_SHORT = 71,    /* the chain from sector `first` has `third` bytes, and `second` are needed */
    GAFLWENED_SECTOR_CUT = 72,     /* of sector `first` of the table `third` bytes are there, and `second` are needed */
    GAFLWENED_FAT_CUT = 73,        /* likewise of sector `first` of the FAT itself */

    /* A damaged directory of a compound file; first: the number of the entry. */
    GAFLWENED_NO_ROOT = 80,
    GAFLWENED_ENTRY_MISSING = 81,  /* another entry leads to it, and the directory doesn't have it */
    GAFLWENED_ENTRY_TWICE = 82,    /* two ways lead to it */
    GAFLWENED_ENTRY_KIND = 83,     /* it has the unknown type `second` */
    GAFLWENED_ENTRY_NAME = 84      /* its name takes `second` bytes, which no name does */
};

/* What a file is that holds no workbook. */
enum {
    GAFLWENED_FILE_EMPTY = 1,
    GAFLWENED_FILE_ZIP = 2,        /* as .xlsx, .xlsb and .ods are */
    GAFLWENED_FILE_HTML = 3,       /* HTML or XML text */
    GAFLWENED_FILE_MHTML = 4,
    GAFLWENED_FILE_SYLK = 5,
    GAFLWENED_FILE_RTF = 6,
    GAFLWENED_FILE_PDF = 7,
    GAFLWENED_FILE_EXCEL_2 = 8,
    GAFLWENED_FILE_EXCEL_3 = 9,
    GAFLWENED_FILE_EXCEL_4 = 10,
    GAFLWENED_FILE_OTHER = 11
};

/* Which chain of a compound file is damaged, and in which table. */
enum {
    GAFLWENED_IN_TABLES = 1,       /* the header, the DIFAT or the FAT */
    GAFLWENED_IN_DIRECTORY = 2,
    GAFLWENED_IN_MINI_FAT = 3,
    GAFLWENED_IN_MINI_STREAM = 4,
    GAFLWENED_IN_WORKBOOK = 5,     /* the workbook's stream */
    GAFLWENED_TABLE_DIFAT = 1,
    GAFLWENED_TABLE_FAT = 2,
    GAFLWENED_TABLE_MINI_FAT = 3
};

/* A fault: its code, and what belongs to it. What a code doesn't name is 0. `part` of a stream's fault is the number of a part
 * of the stream, from 1; gaflwened_fault_text names it. */
typedef struct gaflwened_fault {
    uint32_t code;
    uint32_t part;
    uint32_t table;
    uint32_t reserved;             /* 0 */
    uint64_t first;
    uint64_t second;
    uint64_t third;
} gaflwened_fault;

/* ---- Options -------------------------------------------------------------------------------------------------------- */

/* Which sheets' cells, formulas and regions are counted and read. The defined names are always. */
enum {
    GAFLWENED_ALL_SHEETS = 0,
    GAFLWENED_ONE_SHEET = 1,       /* the one of index `sheet`: `sheets` then has that one alone */
    GAFLWENED_NO_CONTENT = 2       /* all sheets, without cells, formulas and regions (also any greater number) */
};

/* All zero: every sheet, the limits by default, the page that the stream names, the names of the functions of index 0 to 71. */
typedef struct gaflwened_options {
    uint64_t max_bytes;            /* how many bytes the stream may have; 0: 268,435,456 */
    uint64_t max_cells;            /* how many cells the records of one sheet may give; 0: 33,554,432 */
    uint64_t sheet;                /* the index of GAFLWENED_ONE_SHEET */
    uint32_t which;                /* GAFLWENED_ALL_SHEETS .. */
    uint16_t code_page;            /* of the texts of a stream before BIFF8: 1200, 1252, 28591 or 65001; 0: as it says */
    uint16_t all_functions;        /* not 0: the names of all functions, index 72 to 380 too */
} gaflwened_options;

/* ---- Content -------------------------------------------------------------------------------------------------------- */

/* How long the arrays are that gaflwened_read fills. */
typedef struct gaflwened_sizes {
    uint64_t sheets;
    uint64_t names;
    uint64_t cells;
    uint64_t formulas;
    uint64_t regions;
    uint64_t text_bytes;
    uint32_t is_1904;              /* 1: days count from 1904-01-01; 0: from 1899-12-31 */
    uint32_t reserved;             /* 0 */
} gaflwened_sizes;

/* A text: so many bytes of `texts` from an offset on. */
typedef struct gaflwened_span {
    uint64_t offset;
    uint64_t length;
} gaflwened_span;

enum {
    GAFLWENED_WORKSHEET = 0,
    GAFLWENED_DIALOG_SHEET = 1,
    GAFLWENED_MACRO_SHEET = 2,
    GAFLWENED_CHART_SHEET = 3,
    GAFLWENED_VBA_MODULE = 4
};

enum {
    GAFLWENED_VISIBLE = 0,
    GAFLWENED_HIDDEN = 1,
    GAFLWENED_VERY_HIDDEN = 2      /* can't be shown from the menus */
};

/* A sheet. Its cells are cells[first_cell] to cells[first_cell + cells - 1], and likewise. Where several sheets
 * have one name, each has the content of the last of them; so a file that is made for it may ask for many more cells than it
 * has bytes. GAFLWENED_NO_CONTENT first, and then a sheet at a time, leaves the choice with the caller. */
typedef struct gaflwened_sheet {
    gaflwened_span name;
    uint64_t first_cell;
    uint64_t cells;
    uint64_t first_formula;
    uint64_t formulas;
    uint64_t first_region;
    uint64_t regions;
    uint32_t kind;                 /* GAFLWENED_WORKSHEET .. */
    uint32_t visibility;           /* GAFLWENED_VISIBLE .. */
} gaflwened_sheet;

/* A defined name and the text of its formula. */
typedef struct gaflwened_name {
    gaflwened_span name;
    gaflwened_span formula;
} gaflwened_name;

/* What a cell holds, and how `value` and `length` tell it. `length` is 0 but for texts. */
enum {
    GAFLWENED_BLANK = 0,           /* nothing; value 0 */
    GAFLWENED_NUMBER = 1,          /* a number: value: the bits of a double */
    GAFLWENED_DATE_TIME = 2,       /* likewise: a number of days (gaflwened_serial), where the code of the cell's format says so */
    GAFLWENED_DURATION = 3,        /* likewise a duration */
    GAFLWENED_BOOLEAN = 4,         /* value: 0 or 1 */
    GAFLWENED_ERROR = 5,           /* value: GAFLWENED_ERROR_.. */
    GAFLWENED_TEXT = 6,            /* value: the offset of the text in `texts`, of `length` bytes */
    GAFLWENED_DATE_TEXT = 7,       /* likewise, a date in the text of ISO 8601; no .xls has one */
    GAFLWENED_DURATION_TEXT = 8,   /* likewise a duration */
    GAFLWENED_WHOLE_NUMBER = 9     /* an RK number that is a whole number: value: the bits of the nearest double */
};

/* The codes of error values, as BIFF has them. */
enum {
    GAFLWENED_ERROR_NULL = 0x00,
    GAFLWENED_ERROR_DIV_0 = 0x07,
    GAFLWENED_ERROR_VALUE = 0x0F,
    GAFLWENED_ERROR_REF = 0x17,
    GAFLWENED_ERROR_NAME = 0x1D,
    GAFLWENED_ERROR_NUM = 0x24,
    GAFLWENED_ERROR_NA = 0x2A,
    GAFLWENED_ERROR_GETTING_DATA = 0x2B
};

/* In which form the stream has a number. The double in `value` is the nearest one. */
enum {
    GAFLWENED_DOUBLE = 0,          /* a double */
    GAFLWENED_WHOLE = 1,           /* a whole number: of each GAFLWENED_WHOLE_NUMBER, and of a date or duration that is one */
    GAFLWENED_HUNDREDTHS = 2,      /* so many hundredths */
    GAFLWENED_DOUBLE_OVER_100 = 3  /* a double over 100 */
};

/* A cell. Those of a sheet ascend by row, then column. */
typedef struct gaflwened_cell {
    uint32_t row;
    uint32_t column;
    uint32_t kind;                 /* GAFLWENED_BLANK .. */
    uint32_t form;                 /* of a number, a date or a duration: GAFLWENED_DOUBLE ..; else 0 */
    uint64_t value;
    uint64_t length;
} gaflwened_cell;

/* The text of a cell's formula, without `=`. Those of a sheet ascend by row, then column. */
typedef struct gaflwened_formula {
    uint32_t row;
    uint32_t column;
    gaflwened_span text;
} gaflwened_formula;

/* A merged region, its last row and column included; those of a sheet in the order of the stream. */
typedef struct gaflwened_region {
    uint32_t first_row;
    uint32_t first_column;
    uint32_t last_row;
    uint32_t last_column;
} gaflwened_region;

/* ---- What stands beside the values ---------------------------------------------------------------------------------- */

/* A number that the file doesn't have. */
#define GAFLWENED_NOT_KNOWN UINT32_C(0xFFFFFFFF)

/* A colour is 00rrggbb: red, green and blue of 8 bits each; or one of these. */
#define GAFLWENED_AUTO UINT32_C(0xFFFFFFFF) /* that of the window: of a font black as a rule, of a ground white */
#define GAFLWENED_NONE UINT32_C(0xFFFFFFFE) /* there is nothing that would have a colour */

/* How long the arrays are that one of these calls fills. An array that a call doesn't have counts 0. */
typedef struct gaflwened_counts {
    uint64_t items;                /* of its first array */
    uint64_t damages;
    uint64_t text_bytes;
} gaflwened_counts;

/* The record of a damage, by its number in a stream. */
enum {
    GAFLWENED_RECORD_EXTERN_SHEET = 0x0017,        /* of gaflwened_books */
    GAFLWENED_RECORD_NOTE = 0x001C,                /* of gaflwened_comments */
    GAFLWENED_RECORD_EXTERN_NAME = 0x0023,         /* of gaflwened_books */
    GAFLWENED_RECORD_FONT = 0x0031,                /* of gaflwened_styles */
    GAFLWENED_RECORD_COL_INFO = 0x007D,            /* of gaflwened_hidden */
    GAFLWENED_RECORD_XF = 0x00E0,                  /* of gaflwened_styles */
    GAFLWENED_RECORD_SUP_BOOK = 0x01AE,            /* of gaflwened_books */
    GAFLWENED_RECORD_H_LINK = 0x01B8,              /* of gaflwened_links */
    GAFLWENED_RECORD_ROW = 0x0208,                 /* of gaflwened_hidden */
    GAFLWENED_RECORD_DEFAULT_ROW_HEIGHT = 0x0225   /* of gaflwened_hidden */
};

/* A record that is damaged. It gives no item (but a Font and an XF, which count without what is missing, and a SupBook, whose names
 * before the damage count), and the workbook is read all the same. */
typedef struct gaflwened_damage {
    uint64_t offset;               /* where its header begins in the stream, in bytes */
    gaflwened_span why;            /* a sentence in English without a full stop: `shorter than 16 bytes: 3` */
    uint32_t row;                  /* the cell, where the record has one and these bytes are there; else GAFLWENED_NOT_KNOWN */
    uint32_t column;               /* likewise */
    uint32_t record;               /* GAFLWENED_RECORD_.. */
    uint32_t reserved;             /* 0 */
} gaflwened_damage;

/* Why rows or columns can't be seen. A run has one of these. */
enum {
    GAFLWENED_WHY_HIDDEN = 1,      /* hidden by hand, or as all rows that the sheet doesn't speak of */
    GAFLWENED_WHY_FILTERED = 2,    /* rows, hidden in the area of a filter that hides some: by it, or by hand */
    GAFLWENED_WHY_FLAT = 4         /* not hidden, but of height or width 0 */
};

/* Rows or columns one after another that can't be seen, as long as it can be for one reason. Those of rows come first, and
 * then those of columns; both ascend. */
typedef struct gaflwened_hidden_run {
    uint32_t first;
    uint32_t last;                 /* included */
    uint32_t why;                  /* GAFLWENED_WHY_.. */
    uint32_t is_column;            /* 0: rows; 1: columns */
} gaflwened_hidden_run;

/* The marks of a style, one bit each. */
enum {
    GAFLWENED_MARK_BOLD = 0x0001,
    GAFLWENED_MARK_ITALIC = 0x0002,
    GAFLWENED_MARK_STRIKE = 0x0004,
    GAFLWENED_MARK_UNDERLINE = 0x0008,
    GAFLWENED_MARK_DOUBLE = 0x0010,     /* underlined twice; GAFLWENED_MARK_UNDERLINE isn't set then */
    GAFLWENED_MARK_SUPERSCRIPT = 0x0020,
    GAFLWENED_MARK_SUBSCRIPT = 0x0040,
    GAFLWENED_MARK_UNLOCKED = 0x0080,   /* the cell may be edited in a protected sheet */
    GAFLWENED_MARK_CONCEALED = 0x0100,  /* its formula isn't shown there */
    GAFLWENED_MARK_WRAP = 0x0200,       /* the text goes on in further lines */
    GAFLWENED_MARK_SHRINK = 0x0400      /* the text is made as small as the cell */
};

/* Where a text stands in its cell, across. */
enum {
    GAFLWENED_ACROSS_GENERAL = 0,  /* texts left, numbers right */
    GAFLWENED_ACROSS_LEFT = 1,
    GAFLWENED_ACROSS_CENTER = 2,
    GAFLWENED_ACROSS_RIGHT = 3,
    GAFLWENED_ACROSS_FILL = 4,
    GAFLWENED_ACROSS_JUSTIFY = 5,
    GAFLWENED_ACROSS_CENTER_CONTINUOUS = 6,
    GAFLWENED_ACROSS_DISTRIBUTED = 7
};

/* Likewise down. Records may have other numbers, up to 7, which have no meaning. */
enum {
    GAFLWENED_DOWN_TOP = 0,
    GAFLWENED_DOWN_CENTER = 1,
    GAFLWENED_DOWN_BOTTOM = 2,
    GAFLWENED_DOWN_JUSTIFY = 3,
    GAFLWENED_DOWN_DISTRIBUTED = 4
};

/* The kind of a line of a border. */
enum {
    GAFLWENED_LINE_NONE = 0,
    GAFLWENED_LINE_THIN = 1,
    GAFLWENED_LINE_MEDIUM = 2,
    GAFLWENED_LINE_DASHED = 3,
    GAFLWENED_LINE_DOTTED = 4,
    GAFLWENED_LINE_THICK = 5,
    GAFLWENED_LINE_DOUBLE = 6,
    GAFLWENED_LINE_HAIR = 7,
    GAFLWENED_LINE_MEDIUM_DASHED = 8,
    GAFLWENED_LINE_DASH_DOT = 9,
    GAFLWENED_LINE_MEDIUM_DASH_DOT = 10,
    GAFLWENED_LINE_DASH_DOT_DOT = 11,
    GAFLWENED_LINE_MEDIUM_DASH_DOT_DOT = 12,
    GAFLWENED_LINE_SLANT_DASH_DOT = 13
};

/* A line of a border. */
typedef struct gaflwened_border {
    uint32_t line;                 /* GAFLWENED_LINE_..; 14 and 15 have no name */
    uint32_t colour;               /* GAFLWENED_NONE where `line` is 0 */
} gaflwened_border;

/* Which diagonals a cell has. */
enum {
    GAFLWENED_DIAGONAL_NONE = 0,
    GAFLWENED_DIAGONAL_DOWN = 1,   /* from the upper left to the lower right */
    GAFLWENED_DIAGONAL_UP = 2,     /* from the lower left to the upper right */
    GAFLWENED_DIAGONAL_CROSS = 3   /* both */
};

/* How a cell looks: an XF record of the workbook, with its font, number format and colours. */
typedef struct gaflwened_style {
    gaflwened_span font;           /* the font's name; empty where the workbook doesn't have the font */
    gaflwened_span format;         /* the code of the number format: `#,##0.00`; empty of a few that hang on the language of Excel */
    uint32_t size;                 /* of the font, in twentieths of a point; GAFLWENED_NOT_KNOWN where the font isn't there */
    uint32_t marks;                /* GAFLWENED_MARK_BOLD .., added up */
    uint32_t colour;               /* of the font: a colour or GAFLWENED_AUTO */
    uint32_t pattern;              /* 0: no fill; 1: filled with one colour; 2 to 63: the number of a pattern */
    uint32_t fill;                 /* the colour of the fill or of the pattern; GAFLWENED_NONE where `pattern` is 0 */
    uint32_t ground;               /* the colour behind the pattern; GAFLWENED_NONE where `pattern` is 0 or 1 */
    uint32_t across;               /* GAFLWENED_ACROSS_.. */
    uint32_t down;                 /* GAFLWENED_DOWN_.. */
    uint32_t indent;               /* in steps of three blanks, 0 to 15 */
    uint32_t turn;                 /* degrees: 0 to 90 counter-clockwise, 91 to 180 clockwise and 90 more; 255: letters below each other */
    gaflwened_border left;
    gaflwened_border right;
    gaflwened_border top;
    gaflwened_border bottom;
    gaflwened_border diagonal;     /* it is there where `diagonals` isn't 0 either */
    uint32_t diagonals;            /* GAFLWENED_DIAGONAL_.. */
    uint32_t reserved;             /* 0 */
} gaflwened_style;

/* Which style a cell has: one for each cell of the sheet that has a record. So blank cells are there too, which gaflwened_read doesn't
 * give; of several records of one cell the last counts. They ascend by row, then column, as the cells of gaflwened_read do. */
typedef struct gaflwened_cell_style {
    uint32_t row;
    uint32_t column;
    uint16_t style;                /* the index in the array of gaflwened_styles; past its end where the workbook doesn't have it */
    uint16_t reserved;             /* 0 */
} gaflwened_cell_style;

/* The comment of a cell. They come in the order of the stream; two may belong to one cell. */
typedef struct gaflwened_comment {
    uint32_t row;
    uint32_t column;
    gaflwened_span author;         /* empty before BIFF8 */
    gaflwened_span words;          /* its text */
    uint32_t visible;              /* 1: always shown; 0: when the cell is pointed at */
    uint32_t reserved;             /* 0 */
} gaflwened_comment;

/* Where a hyperlink leads. */
enum {
    GAFLWENED_LINK_URL = 0,
    GAFLWENED_LINK_FILE = 1,
    GAFLWENED_LINK_UNC = 2,        /* a file whose path begins with two backslashes */
    GAFLWENED_LINK_PLACE = 3       /* a place in this workbook; `target` is empty */
};

/* A hyperlink and its cells. They come in the order of the stream. Formulas with HYPERLINK have none. */
typedef struct gaflwened_link {
    uint32_t first_row;
    uint32_t first_column;
    uint32_t last_row;             /* included */
    uint32_t last_column;          /* included */
    gaflwened_span target;         /* a URL or a path */
    gaflwened_span place;          /* a place in the target: `Sheet2!A1` */
    gaflwened_span shown;          /* the text that is shown for it */
    gaflwened_span tip;            /* the text that is shown when it is pointed at */
    uint32_t kind;                 /* GAFLWENED_LINK_URL .. */
    uint32_t reserved;             /* 0 */
} gaflwened_link;

/* What an item of gaflwened_books is. */
enum {
    GAFLWENED_BOOK_WORKBOOK = 0,   /* another workbook */
    GAFLWENED_BOOK_PROGRAM = 1,    /* a program that gives data (DDE) */
    GAFLWENED_BOOK_SHEET = 2,      /* a sheet of the last workbook or program before it */
    GAFLWENED_BOOK_NAME = 3,       /* a name of it */
    GAFLWENED_BOOK_FUNCTION = 4    /* a function of an add-in, which belongs to no item before it */
};

/* Another workbook or a program that formulas cite, or one of its sheets or names, or a function of an add-in. They come in the order of
 * the stream: behind each workbook its sheets, and then its names. */
typedef struct gaflwened_book {
    gaflwened_span path;           /* of a workbook the path, of a program its name; of others their name */
    gaflwened_span topic;          /* of a program; else empty */
    uint32_t kind;                 /* GAFLWENED_BOOK_WORKBOOK .. */
    uint32_t reserved;             /* 0 */
} gaflwened_book;

/* A formula that cites another workbook or a program. They come in the order of the stream, what one formula cites from left to right, each
 * once. Their texts stand in `texts` once for each. */
typedef struct gaflwened_outside {
    uint32_t row;
    uint32_t column;
    gaflwened_span book;           /* the path of the workbook, or the name of the program, as gaflwened_books has it */
    gaflwened_span sheet;          /* `Sheet1` or `Sheet1:Sheet3`; empty where it cites a name, or where the sheet isn't there */
    gaflwened_span name;           /* the name that it cites, else empty */
} gaflwened_outside;

/* ---- Calls ---------------------------------------------------------------------------------------------------------- */

/* GAFLWENED_VERSION of the library. */
uint32_t gaflwened_version(void);

/* The workbook's stream of a file: the stream `Workbook`, or else `Book`, of a compound file, or the whole of a file that is
 * such a stream. *size becomes its length in bytes. Where out_length is enough, out begins with the stream; else the answer is
 * GAFLWENED_TOO_SHORT, and out is as it was. Of a file without a workbook the answer is its first fault, and *size is 0. */
uint32_t gaflwened_stream(const uint8_t *file, size_t file_length, uint8_t *out, size_t out_length, uint64_t *size,
                          gaflwened_fault *fault);

/* How long arrays for what a stream holds must be. Of a stream with a fault the answer is its first, and *sizes is all zero. */
uint32_t gaflwened_measure(const uint8_t *stream, size_t stream_length, const gaflwened_options *options,
                           gaflwened_sizes *sizes, gaflwened_fault *fault);

/* Fills arrays with what a stream holds. Those that are longer than gaflwened_measure says begin with it. Where one is shorter, the
 * answer is GAFLWENED_TOO_SHORT. After any code but GAFLWENED_OK nothing is known of the arrays. With GAFLWENED_OK and with
 * GAFLWENED_TOO_SHORT *sizes is what gaflwened_measure says, so that a caller with arrays that are likely long enough needs this
 * call alone; with any other code it is all zero.
 *
 * `texts` has the texts one after the other: of each defined name its name and its formula; and then sheet by sheet its name, the
 * texts of its cells, the texts of its formulas. A text that several cells show stands there once for each. */
uint32_t gaflwened_read(const uint8_t *stream, size_t stream_length, const gaflwened_options *options,
                        gaflwened_sheet *sheets, size_t sheets_length,
                        gaflwened_name *names, size_t names_length,
                        gaflwened_cell *cells, size_t cells_length,
                        gaflwened_formula *formulas, size_t formulas_length,
                        gaflwened_region *regions, size_t regions_length,
                        uint8_t *texts, size_t texts_length,
                        gaflwened_sizes *sizes, gaflwened_fault *fault);

/* What Excel shows of the cells of one sheet: that of the index `sheet` of the options, whatever their `which` is. `cells` becomes
 * the cells that gaflwened_read gives for the sheet, in the same order, each of the kind GAFLWENED_TEXT: its `value` and `length`
 * cite the text in `texts` that its number format makes of what it holds, in a column of any width, in the English of the United
 * States; a blank has an empty one. `texts` has those texts alone, one after the other. *sizes says how long both arrays must be,
 * and the counts of others are 0; a call with two empty arrays counts. Arrays that are longer or shorter, *sizes and the answer are
 * as of gaflwened_read. */
uint32_t gaflwened_shown(const uint8_t *stream, size_t stream_length, const gaflwened_options *options,
                         gaflwened_cell *cells, size_t cells_length, uint8_t *texts, size_t texts_length,
                         gaflwened_sizes *sizes, gaflwened_fault *fault);

/* A sentence in English that tells a fault. *size becomes its length in bytes. Where out_length is enough, out begins with it;
 * else the answer is GAFLWENED_TOO_SHORT, and out is as it was. */
uint32_t gaflwened_fault_text(const gaflwened_fault *fault, uint8_t *out, size_t out_length, uint64_t *size);

/* The text of a number of days, the double with these bits, to the nearest millisecond, ties to even. As a date and time:
 * `2024-02-29T13:45:30.25`, at midnight the day alone, below one day the time alone. As a duration (is_duration not 0):
 * `30:00:00`, `-1:30:00.5`. A number that is out of range stays a number, `-1`. is_1904 as in gaflwened_sizes, 0 or else 1.
 * *size, out and the answer are as of gaflwened_fault_text. */
uint32_t gaflwened_serial(uint64_t bits, uint32_t is_1904, uint32_t is_duration, uint8_t *out, size_t out_length,
                          uint64_t *size);

/* ---- Calls for what stands beside the values ------------------------------------------------------------------------ */

/* These seven fill arrays from the same stream, each alone: nothing of them is read before it is asked for. What they have in common:
 *
 * Of the options max_bytes, max_cells and code_page count, and `sheet` for the five that read one sheet (hidden, style_of, comments, links,
 * outside_of): the sheet of that index, whatever `which` is. Where several sheets have one name, each has the content of the last of them,
 * as in gaflwened_read.
 *
 * The answer is GAFLWENED_OUT_OF_MEMORY, or GAFLWENED_OBFUSCATED or the first fault of the stream exactly where gaflwened_measure answers
 * that, or GAFLWENED_NO_SUCH_SHEET where the workbook has no sheet of that index, or GAFLWENED_TOO_SHORT where an array is shorter than
 * what it is to hold; nothing else, and no damage of what they read refuses. With GAFLWENED_OK and with GAFLWENED_TOO_SHORT *counts says
 * how long the arrays must be; with any other code it is all zero. A call with empty arrays counts. Arrays that are longer begin with what
 * is read; after any code but GAFLWENED_OK nothing is known of the arrays.
 *
 * `damages` has the damaged records in the order of the stream, but a SupBook behind its names. `texts` has the texts of both arrays. */

/* The rows and columns of a sheet that can't be seen. */
uint32_t gaflwened_hidden(const uint8_t *stream, size_t stream_length, const gaflwened_options *options,
                          gaflwened_hidden_run *runs, size_t runs_length,
                          gaflwened_damage *damages, size_t damages_length,
                          uint8_t *texts, size_t texts_length,
                          gaflwened_counts *counts, gaflwened_fault *fault);

/* The styles of a workbook, one for each XF record in the order of the stream. */
uint32_t gaflwened_styles(const uint8_t *stream, size_t stream_length, const gaflwened_options *options,
                          gaflwened_style *styles, size_t styles_length,
                          gaflwened_damage *damages, size_t damages_length,
                          uint8_t *texts, size_t texts_length,
                          gaflwened_counts *counts, gaflwened_fault *fault);

/* Which style each cell of a sheet has. */
uint32_t gaflwened_style_of(const uint8_t *stream, size_t stream_length, const gaflwened_options *options,
                            gaflwened_cell_style *cells, size_t cells_length,
                            gaflwened_counts *counts, gaflwened_fault *fault);

/* The comments of a sheet. */
uint32_t gaflwened_comments(const uint8_t *stream, size_t stream_length, const gaflwened_options *options,
                            gaflwened_comment *comments, size_t comments_length,
                            gaflwened_damage *damages, size_t damages_length,
                            uint8_t *texts, size_t texts_length,
                            gaflwened_counts *counts, gaflwened_fault *fault);

/* The hyperlinks of a sheet. */
uint32_t gaflwened_links(const uint8_t *stream, size_t stream_length, const gaflwened_options *options,
                         gaflwened_link *links, size_t links_length,
                         gaflwened_damage *damages, size_t damages_length,
                         uint8_t *texts, size_t texts_length,
                         gaflwened_counts *counts, gaflwened_fault *fault);

/* The other workbooks, programs and added functions that a workbook refers to. */
uint32_t gaflwened_books(const uint8_t *stream, size_t stream_length, const gaflwened_options *options,
                         gaflwened_book *books, size_t books_length,
                         gaflwened_damage *damages, size_t damages_length,
                         uint8_t *texts, size_t texts_length,
                         gaflwened_counts *counts, gaflwened_fault *fault);

/* The formulas of a sheet that cite another workbook or a program. */
uint32_t gaflwened_outside_of(const uint8_t *stream, size_t stream_length, const gaflwened_options *options,
                              gaflwened_outside *outside, size_t outside_length,
                              uint8_t *texts, size_t texts_length,
                              gaflwened_counts *counts, gaflwened_fault *fault);

#ifdef __cplusplus
}
#endif

#endif
