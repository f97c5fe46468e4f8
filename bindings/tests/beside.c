/* beside.c: writes what stands beside the values of a workbook, and tries the calls for it with arrays that are too short and too long.
 *
 *     beside TOPIC FILE    the lines of `xls TOPIC` for hidden, styles, comments, links or books, without `frozen`, `zeros` and `run`;
 *                          the `damaged` lines of the globals and of each sheet stand behind the others. Of a file that is refused
 *                          nothing, and status 1
 */
#define main list_cells_main
#include "../../examples/c/list_cells.c"
#undef main

static int failures;

static void want(int holds, const char *what)
{
    if (!holds) {
        fprintf(stderr, "beside: %s\n", what);
        failures++;
    }
}

/* ---- the seven calls as one ---- */

enum topic { HIDDEN, STYLES, STYLE_OF, COMMENTS, LINKS, BOOKS, OUTSIDE_OF };

/* What a call fills. */
struct table {
    void *items;
    gaflwened_damage *damages;
    uint8_t *texts;
    gaflwened_counts counts;
};

static size_t item_size(enum topic topic)
{
    switch (topic) {
    case HIDDEN: return sizeof(gaflwened_hidden_run);
    case STYLES: return sizeof(gaflwened_style);
    case STYLE_OF: return sizeof(gaflwened_cell_style);
    case COMMENTS: return sizeof(gaflwened_comment);
    case LINKS: return sizeof(gaflwened_link);
    case BOOKS: return sizeof(gaflwened_book);
    default: return sizeof(gaflwened_outside);
    }
}

/* A call that fills a table whose arrays are as long as `lengths` says. */
static uint32_t fill(enum topic topic, const uint8_t *stream, size_t length, const gaflwened_options *options, struct table *table,
                     const gaflwened_counts *lengths, gaflwened_fault *fault)
{
    size_t items = (size_t)lengths->items, damages = (size_t)lengths->damages, texts = (size_t)lengths->text_bytes;
    gaflwened_counts *counts = &table->counts;
    switch (topic) {
    case HIDDEN:
        return gaflwened_hidden(stream, length, options, table->items, items, table->damages, damages, table->texts, texts, counts, fault);
    case STYLES:
        return gaflwened_styles(stream, length, options, table->items, items, table->damages, damages, table->texts, texts, counts, fault);
    case STYLE_OF: return gaflwened_style_of(stream, length, options, table->items, items, counts, fault);
    case COMMENTS:
        return gaflwened_comments(stream, length, options, table->items, items, table->damages, damages, table->texts, texts, counts,
                                  fault);
    case LINKS:
        return gaflwened_links(stream, length, options, table->items, items, table->damages, damages, table->texts, texts, counts, fault);
    case BOOKS:
        return gaflwened_books(stream, length, options, table->items, items, table->damages, damages, table->texts, texts, counts, fault);
    default: return gaflwened_outside_of(stream, length, options, table->items, items, table->texts, texts, counts, fault);
    }
}

static struct table table_of(enum topic topic, const gaflwened_counts *lengths)
{
    struct table table = {array(lengths->items, item_size(topic)), array(lengths->damages, sizeof(gaflwened_damage)),
                          array(lengths->text_bytes, 1), {0, 0, 0}};
    return table;
}

static void free_table(struct table *table)
{
    free(table->items);
    free(table->damages);
    free(table->texts);
}

static int same(const gaflwened_counts *one, const gaflwened_counts *other)
{
    return memcmp(one, other, sizeof *one) == 0;
}

/* A table of which one array is shorter by an item is refused, and says how long they must be. */
static void too_short(enum topic topic, const uint8_t *stream, size_t length, const gaflwened_options *options,
                      const gaflwened_counts *counts)
{
    for (int which = 0; which < 3; which++) {
        gaflwened_counts lengths = *counts;
        uint64_t *one = which == 0 ? &lengths.items : which == 1 ? &lengths.damages : &lengths.text_bytes;
        if (*one == 0)
            continue;
        --*one;
        gaflwened_fault fault;
        struct table table = table_of(topic, &lengths);
        uint32_t code = fill(topic, stream, length, options, &table, &lengths, &fault);
        want(code == GAFLWENED_TOO_SHORT && fault.code == code && same(&table.counts, counts), "a short array");
        free_table(&table);
    }
}

/* Longer arrays begin with the same. */
static void too_long(enum topic topic, const uint8_t *stream, size_t length, const gaflwened_options *options, const struct table *wanted)
{
    const gaflwened_counts *counts = &wanted->counts;
    const gaflwened_counts lengths = {counts->items + 3, counts->damages + 2, counts->text_bytes + 5};
    gaflwened_fault fault;
    struct table table = table_of(topic, &lengths);
    want(fill(topic, stream, length, options, &table, &lengths, &fault) == GAFLWENED_OK && fault.code == GAFLWENED_OK
             && same(&table.counts, counts)
             && memcmp(table.items, wanted->items, (size_t)counts->items * item_size(topic)) == 0
             && memcmp(table.damages, wanted->damages, (size_t)counts->damages * sizeof(gaflwened_damage)) == 0
             && memcmp(table.texts, wanted->texts, (size_t)counts->text_bytes) == 0, "longer arrays");
    free_table(&table);
}

/* What a call reads: first how much, then the arrays. */
static struct table read_table(enum topic topic, const uint8_t *stream, size_t length, const gaflwened_options *options)
{
    const gaflwened_counts none = {0, 0, 0};
    gaflwened_fault fault;
    struct table count = table_of(topic, &none);
    uint32_t code = fill(topic, stream, length, options, &count, &none, &fault);
    want(code == (same(&count.counts, &none) ? GAFLWENED_OK : GAFLWENED_TOO_SHORT) && fault.code == code, "the counts");
    struct table table = table_of(topic, &count.counts);
    code = fill(topic, stream, length, options, &table, &count.counts, &fault);
    want(code == GAFLWENED_OK && fault.code == code && same(&table.counts, &count.counts), "what is read");
    too_short(topic, stream, length, options, &count.counts);
    too_long(topic, stream, length, options, &table);
    free_table(&count);
    return table;
}

/* What a call answers of a stream that is refused: the same as gaflwened_measure. */
static void refused(enum topic topic, const uint8_t *stream, size_t length, const gaflwened_options *options,
                    const gaflwened_fault *wanted)
{
    const gaflwened_counts none = {0, 0, 0};
    gaflwened_fault fault;
    struct table table = table_of(topic, &none);
    table.counts.items = 7;
    uint32_t code = fill(topic, stream, length, options, &table, &none, &fault);
    want(code == wanted->code && memcmp(&fault, wanted, sizeof fault) == 0 && same(&table.counts, &none), "what a fault is");
    free_table(&table);
}

/* ---- lines ---- */

static void put_field(const struct table *table, gaflwened_span text)
{
    const struct book book = {.texts = table->texts};
    want(text.offset <= table->counts.text_bytes && text.length <= table->counts.text_bytes - text.offset, "where a text is");
    putchar('\t');
    put_text(&book, text.offset, text.length);
}

static void put_place(uint32_t number)
{
    putchar('\t');
    if (number != GAFLWENED_NOT_KNOWN)
        printf("%" PRIu32, number);
}

static const char *record_name(uint32_t record)
{
    switch (record) {
    case GAFLWENED_RECORD_EXTERN_SHEET: return "ExternSheet";
    case GAFLWENED_RECORD_NOTE: return "Note";
    case GAFLWENED_RECORD_EXTERN_NAME: return "ExternName";
    case GAFLWENED_RECORD_FONT: return "Font";
    case GAFLWENED_RECORD_COL_INFO: return "ColInfo";
    case GAFLWENED_RECORD_XF: return "XF";
    case GAFLWENED_RECORD_SUP_BOOK: return "SupBook";
    case GAFLWENED_RECORD_H_LINK: return "HLink";
    case GAFLWENED_RECORD_ROW: return "Row";
    case GAFLWENED_RECORD_DEFAULT_ROW_HEIGHT: return "DefaultRowHeight";
    default: return "?";
    }
}

static void put_damages(const struct table *table)
{
    for (uint64_t i = 0; i < table->counts.damages; i++) {
        const gaflwened_damage *damage = &table->damages[i];
        printf("damaged\t%s\t%" PRIu64, record_name(damage->record), damage->offset);
        put_place(damage->row);
        put_place(damage->column);
        put_field(table, damage->why);
        putchar('\n');
        want(damage->reserved == 0, "what is reserved of a damage");
    }
}

static void put_runs(const struct table *table)
{
    const gaflwened_hidden_run *runs = table->items;
    for (uint64_t i = 0; i < table->counts.items; i++) {
        const char *why = runs[i].why == GAFLWENED_WHY_HIDDEN ? "hidden" : runs[i].why == GAFLWENED_WHY_FILTERED ? "filtered"
            : runs[i].why == GAFLWENED_WHY_FLAT ? "flat" : "?";
        printf("%s\t%" PRIu32 "\t%" PRIu32 "\t%s\n", runs[i].is_column ? "columns" : "rows", runs[i].first, runs[i].last, why);
        want(runs[i].is_column <= 1 && (i == 0 || runs[i - 1].is_column <= runs[i].is_column), "rows stand before columns");
    }
}

static void put_colour(uint32_t colour)
{
    if (colour == GAFLWENED_AUTO) {
        fputs("auto", stdout);
    } else {
        printf("#%06" PRIx32, colour);
        want(colour <= 0xFFFFFF, "a colour");
    }
}

static void put_fill(const gaflwened_style *style)
{
    want((style->pattern == 0) == (style->fill == GAFLWENED_NONE) && (style->pattern <= 1) == (style->ground == GAFLWENED_NONE),
         "the colours of a fill");
    if (style->pattern > 1)
        printf("%" PRIu32 " ", style->pattern);
    if (style->pattern != 0)
        put_colour(style->fill);
    if (style->pattern > 1) {
        putchar(' ');
        put_colour(style->ground);
    }
}

/* Words that blanks separate. */
static void put_word(int *is_first, const char *word)
{
    if (word[0] == '\0')
        return;
    if (!*is_first)
        putchar(' ');
    fputs(word, stdout);
    *is_first = 0;
}

static void put_marks(uint32_t marks)
{
    static const char *const words[] = {"bold", "italic", "strike", "underline", "double", "superscript", "subscript", "unlocked",
                                        "concealed"};
    int is_first = 1;
    for (int bit = 0; bit < 9; bit++)
        put_word(&is_first, marks >> bit & 1 ? words[bit] : "");
    const uint32_t lines = GAFLWENED_MARK_UNDERLINE | GAFLWENED_MARK_DOUBLE, scripts = GAFLWENED_MARK_SUPERSCRIPT | GAFLWENED_MARK_SUBSCRIPT;
    want(marks >> 11 == 0 && (marks & lines) != lines && (marks & scripts) != scripts, "marks that a text can't have");
}

static void put_alignment(const gaflwened_style *style)
{
    static const char *const across[] = {"", "left", "center", "right", "fill", "justify", "centerContinuous", "distributed"};
    static const char *const down[] = {"top", "center", "", "justify", "distributed", "", "", ""};
    char word[32];
    int is_first = 1;
    want(style->across < 8 && style->down < 8 && style->indent < 16 && style->turn < 256, "the numbers of an alignment");
    put_word(&is_first, across[style->across & 7]);
    put_word(&is_first, down[style->down & 7]);
    put_word(&is_first, style->marks & GAFLWENED_MARK_WRAP ? "wrap" : "");
    put_word(&is_first, style->marks & GAFLWENED_MARK_SHRINK ? "shrink" : "");
    snprintf(word, sizeof word, "indent:%" PRIu32, style->indent);
    put_word(&is_first, style->indent ? word : "");
    snprintf(word, sizeof word, "turn:%" PRIu32, style->turn);
    put_word(&is_first, style->turn ? word : "");
}

static void put_border(int *is_first, const char *side, gaflwened_border border)
{
    static const char *const lines[] = {"", "thin", "medium", "dashed", "dotted", "thick", "double", "hair", "mediumDashed", "dashDot",
                                        "mediumDashDot", "dashDotDot", "mediumDashDotDot", "slantDashDot", "14", "15"};
    want(border.line < 16 && (border.line == GAFLWENED_LINE_NONE) == (border.colour == GAFLWENED_NONE), "a line");
    if (border.line == GAFLWENED_LINE_NONE)
        return;
    put_word(is_first, side);
    printf(":%s:", lines[border.line & 15]);
    put_colour(border.colour);
}

static void put_borders(const gaflwened_style *style)
{
    static const char *const diagonals[] = {"", "down", "up", "cross"};
    int is_first = 1;
    put_border(&is_first, "left", style->left);
    put_border(&is_first, "right", style->right);
    put_border(&is_first, "top", style->top);
    put_border(&is_first, "bottom", style->bottom);
    want(style->diagonals < 4, "the diagonals");
    if (style->diagonals != GAFLWENED_DIAGONAL_NONE)
        put_border(&is_first, diagonals[style->diagonals & 3], style->diagonal);
}

/* In the place of a style that the workbook doesn't have. */
static const gaflwened_style no_style = {
    .size = GAFLWENED_NOT_KNOWN, .colour = GAFLWENED_AUTO, .fill = GAFLWENED_NONE, .ground = GAFLWENED_NONE,
    .down = GAFLWENED_DOWN_BOTTOM, .left = {0, GAFLWENED_NONE}, .right = {0, GAFLWENED_NONE}, .top = {0, GAFLWENED_NONE},
    .bottom = {0, GAFLWENED_NONE}, .diagonal = {0, GAFLWENED_NONE},
};

static void put_size(uint32_t twentieths)
{
    if (twentieths == GAFLWENED_NOT_KNOWN)
        return;
    printf("%" PRIu32, twentieths / 20);
    if (twentieths % 20 != 0)
        printf(twentieths % 2 == 0 ? ".%" PRIu32 : ".%02" PRIu32, twentieths % 2 == 0 ? twentieths % 20 / 2 : twentieths % 20 * 5);
}

static void put_cell_styles(const struct table *cells, const struct table *styles)
{
    const gaflwened_cell_style *cell = cells->items;
    for (uint64_t i = 0; i < cells->counts.items; i++, cell++) {
        const gaflwened_style *style = &no_style;
        if (cell->style < styles->counts.items)
            style = (const gaflwened_style *)styles->items + cell->style;
        want(cell->reserved == 0 && style->reserved == 0, "what is reserved of a style");
        want(i == 0 || cell[-1].row < cell->row || (cell[-1].row == cell->row && cell[-1].column < cell->column), "cells ascend");
        printf("style\t%" PRIu32 "\t%" PRIu32 "\t", cell->row, cell->column);
        put_marks(style->marks);
        put_field(styles, style->format);
        put_field(styles, style->font);
        putchar('\t');
        put_size(style->size);
        putchar('\t');
        put_colour(style->colour);
        putchar('\t');
        put_fill(style);
        putchar('\t');
        put_alignment(style);
        putchar('\t');
        put_borders(style);
        putchar('\n');
    }
    want(cells->counts.damages == 0 && cells->counts.text_bytes == 0, "nothing else of which style a cell has");
}

static void put_comments(const struct table *table)
{
    const gaflwened_comment *comment = table->items;
    for (uint64_t i = 0; i < table->counts.items; i++, comment++) {
        printf("comment\t%" PRIu32 "\t%" PRIu32 "\t%s", comment->row, comment->column, comment->visible ? "visible" : "hidden");
        put_field(table, comment->author);
        put_field(table, comment->words);
        putchar('\n');
        want(comment->visible <= 1 && comment->reserved == 0, "what is reserved of a comment");
    }
}

static void put_links(const struct table *table)
{
    static const char *const kinds[] = {"url", "file", "unc", "place"};
    const gaflwened_link *link = table->items;
    for (uint64_t i = 0; i < table->counts.items; i++, link++) {
        printf("link\t%" PRIu32 "\t%" PRIu32 "\t%" PRIu32 "\t%" PRIu32 "\t%s", link->first_row, link->first_column, link->last_row,
               link->last_column, kinds[link->kind & 3]);
        put_field(table, link->target);
        put_field(table, link->place);
        put_field(table, link->shown);
        put_field(table, link->tip);
        putchar('\n');
        want(link->kind < 4 && link->reserved == 0, "the kind of a link");
    }
}

static void put_books(const struct table *table)
{
    static const char *const lines[] = {"book\tbook", "book\tdde", "book_sheet", "book_name", "function"};
    const gaflwened_book *book = table->items;
    for (uint64_t i = 0; i < table->counts.items; i++, book++) {
        want(book->kind < 5 && book->reserved == 0 && (book->kind == GAFLWENED_BOOK_PROGRAM || book->topic.length == 0), "a book");
        fputs(lines[book->kind % 5], stdout);
        put_field(table, book->path);
        if (book->kind <= GAFLWENED_BOOK_PROGRAM)
            put_field(table, book->topic);
        putchar('\n');
    }
}

static void put_outside(const struct table *table)
{
    const gaflwened_outside *outside = table->items;
    for (uint64_t i = 0; i < table->counts.items; i++, outside++) {
        printf("outside\t%" PRIu32 "\t%" PRIu32, outside->row, outside->column);
        put_field(table, outside->book);
        put_field(table, outside->sheet);
        put_field(table, outside->name);
        putchar('\n');
    }
    want(table->counts.damages == 0, "no damage of what formulas cite");
}

/* What belongs to the workbook and to no sheet. */
static struct table put_globals(enum topic topic, const uint8_t *stream, size_t length, const gaflwened_options *options)
{
    struct table table = read_table(topic, stream, length, options);
    if (topic == BOOKS)
        put_books(&table);
    put_damages(&table);
    return table;
}

static void put_sheet(enum topic topic, const uint8_t *stream, size_t length, const gaflwened_options *options, const struct table *globals)
{
    enum topic of_sheet = topic == STYLES ? STYLE_OF : topic == BOOKS ? OUTSIDE_OF : topic;
    struct table table = read_table(of_sheet, stream, length, options);
    switch (of_sheet) {
    case HIDDEN: put_runs(&table); break;
    case STYLE_OF: put_cell_styles(&table, globals); break;
    case COMMENTS: put_comments(&table); break;
    case LINKS: put_links(&table); break;
    default: put_outside(&table);
    }
    put_damages(&table);
    free_table(&table);
}

static void put_topic(enum topic topic, const uint8_t *stream, size_t length, const struct book *book)
{
    gaflwened_options options = {0};
    struct table globals = {0};
    int has_globals = topic == STYLES || topic == BOOKS;
    if (has_globals)
        globals = put_globals(topic, stream, length, &options);
    for (uint64_t i = 0; i < book->sizes.sheets; i++) {
        options.sheet = i;
        options.which = i % 3; /* (whichever) */
        put_sheet_line(book, &book->sheets[i]);
        put_sheet(topic, stream, length, &options, &globals);
    }
    if (has_globals)
        free_table(&globals);
}

/* No sheet has the index; the calls that read the whole workbook don't look at it. */
static void no_such_sheet(const uint8_t *stream, size_t length, const struct book *book)
{
    static const enum topic of_sheets[] = {HIDDEN, STYLE_OF, COMMENTS, LINKS, OUTSIDE_OF};
    gaflwened_options options = {0};
    gaflwened_fault fault;
    gaflwened_sizes sizes;
    options.which = GAFLWENED_ONE_SHEET;
    options.sheet = book->sizes.sheets;
    uint32_t code = gaflwened_measure(stream, length, &options, &sizes, &fault);
    want(code == GAFLWENED_NO_SUCH_SHEET, "no such sheet");
    for (size_t i = 0; i < sizeof of_sheets / sizeof *of_sheets; i++) {
        options.which = (uint32_t)i % 3;
        refused(of_sheets[i], stream, length, &options, &fault);
    }
    struct table styles = read_table(STYLES, stream, length, &options), books = read_table(BOOKS, stream, length, &options);
    free_table(&styles);
    free_table(&books);
}

int main(int count, char **words)
{
    static const char *const topics[] = {"hidden", "styles", "", "comments", "links", "books"};
    int topic = 0;
    while (count == 3 && topic < 6 && strcmp(words[1], topics[topic]) != 0)
        topic++;
    if (count != 3 || topic == 6)
        return 2;
    size_t length;
    uint8_t *file = read_file(words[2], &length);
    if (file == NULL)
        return 10;
    struct book book = {0};
    gaflwened_options options = {0};
    gaflwened_fault fault;
    uint8_t *stream;
    uint64_t size;
    uint32_t code = read_stream(file, length, &stream, &size, &fault);
    if (code == GAFLWENED_OK) {
        code = read_book(stream, (size_t)size, &options, &book, &fault);
        if (code == GAFLWENED_OK) {
            put_topic((enum topic)topic, stream, (size_t)size, &book);
            no_such_sheet(stream, (size_t)size, &book);
        } else {
            for (int each = HIDDEN; each <= OUTSIDE_OF; each++)
                refused((enum topic)each, stream, (size_t)size, &options, &fault);
        }
    }
    free_book(&book);
    free(stream);
    free(file);
    if (failures != 0)
        return 3;
    return code == GAFLWENED_OK ? 0 : 1;
}
