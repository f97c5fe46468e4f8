/* exact.c: writes what a workbook holds with each number by the bits of its double, and tries arrays that are too short and
 * what Excel shows.
 *
 *     exact FILE    the lines of `xls dump --exact` under the kinds of `xls dump`, but that all numbers other than `int` are bits;
 *                   of a file that is refused a line `fault` with its numbers, and status 1
 */
#define main list_cells_main
#include "../../examples/c/list_cells.c"
#undef main

static int failures;

static void want(int holds, const char *what)
{
    if (!holds) {
        fprintf(stderr, "exact: %s\n", what);
        failures++;
    }
}

static void put_exact_cell(const struct book *book, const gaflwened_cell *cell)
{
    static const char *const kinds[] = {"blank", "float", "date", "span", "bool", "error", "text", "date", "span", "int"};
    double number;
    memcpy(&number, &cell->value, sizeof number);
    printf("cell\t%" PRIu32 "\t%" PRIu32 "\t%s\t", cell->row, cell->column, kinds[cell->kind]);
    switch (cell->kind) {
    case GAFLWENED_WHOLE_NUMBER: printf("%" PRId64, (int64_t)number); break;
    case GAFLWENED_NUMBER:
    case GAFLWENED_DATE_TIME:
    case GAFLWENED_DURATION: printf("0x%016" PRIx64, cell->value); break;
    case GAFLWENED_BOOLEAN: fputs(cell->value ? "true" : "false", stdout); break;
    case GAFLWENED_ERROR: fputs(error_text(cell->value), stdout); break;
    default: put_text(book, cell->value, cell->length);
    }
    putchar('\n');
    want(cell->length == 0 || cell->kind == GAFLWENED_TEXT, "a length of what is no text");
    want(cell->form == 0 || cell->kind == GAFLWENED_NUMBER || cell->kind == GAFLWENED_WHOLE_NUMBER || cell->kind == GAFLWENED_DATE_TIME
             || cell->kind == GAFLWENED_DURATION, "a form of what is no number");
}

/* The sheets' parts of the arrays follow one another. */
static void parts(const struct book *book)
{
    uint64_t cell = 0, formula = 0, region = 0;
    for (uint64_t i = 0; i < book->sizes.sheets; i++) {
        const gaflwened_sheet *sheet = &book->sheets[i];
        want(sheet->first_cell == cell && sheet->first_formula == formula && sheet->first_region == region, "the parts of a sheet");
        cell += sheet->cells;
        formula += sheet->formulas;
        region += sheet->regions;
    }
    want(cell == book->sizes.cells && formula == book->sizes.formulas && region == book->sizes.regions, "the parts of all sheets");
}

/* A read with one array shorter by one item, where it has one. */
static void too_short(const uint8_t *stream, size_t length, const struct book *book, int which)
{
    const gaflwened_sizes *sizes = &book->sizes;
    uint64_t counts[] = {sizes->sheets, sizes->names, sizes->cells, sizes->formulas, sizes->regions, sizes->text_bytes};
    if (counts[which] == 0)
        return;
    counts[which]--;
    const gaflwened_options options = {0};
    gaflwened_sheet *sheets = array(counts[0], sizeof *sheets);
    gaflwened_name *names = array(counts[1], sizeof *names);
    gaflwened_cell *cells = array(counts[2], sizeof *cells);
    gaflwened_formula *formulas = array(counts[3], sizeof *formulas);
    gaflwened_region *regions = array(counts[4], sizeof *regions);
    uint8_t *texts = array(counts[5], 1);
    gaflwened_sizes found;
    gaflwened_fault fault;
    uint32_t code = gaflwened_read(stream, length, &options, sheets, (size_t)counts[0], names, (size_t)counts[1],
                                   cells, (size_t)counts[2], formulas, (size_t)counts[3], regions, (size_t)counts[4],
                                   texts, (size_t)counts[5], &found, &fault);
    want(code == GAFLWENED_TOO_SHORT && fault.code == code, "a short array isn't refused");
    want(memcmp(&found, sizes, sizeof found) == 0, "the sizes beside a short array");
    free(sheets);
    free(names);
    free(cells);
    free(formulas);
    free(regions);
    free(texts);
}

/* What the calls say of too little room for a stream, a fault's text and a date. */
static void short_texts(const uint8_t *file, size_t length, uint64_t stream_size)
{
    uint8_t out[32];
    uint64_t size = 0;
    gaflwened_fault fault;
    memset(out, 0xA5, sizeof out);
    if (stream_size > sizeof out) {
        uint32_t code = gaflwened_stream(file, length, out, sizeof out, &size, &fault);
        want(code == GAFLWENED_TOO_SHORT && fault.code == code && size == stream_size, "a short room for the stream");
    }
    fault = (gaflwened_fault){0};
    fault.code = GAFLWENED_PASSWORD;
    want(gaflwened_fault_text(&fault, out, 3, &size) == GAFLWENED_TOO_SHORT && size > 3, "a short room for a fault's text");
    double days = 60.5;
    uint64_t bits;
    memcpy(&bits, &days, sizeof bits);
    want(gaflwened_serial(bits, 0, 0, out, 18, &size) == GAFLWENED_TOO_SHORT && size == 19, "a short room for a date");
    for (size_t i = 0; i < sizeof out; i++)
        want(out[i] == 0xA5, "what is written to a short room");
    want(gaflwened_serial(bits, 0, 0, out, 19, &size) == GAFLWENED_OK && memcmp(out, "1900-02-29T12:00:00", 19) == 0, "a date");
}

/* What Excel shows of each sheet's cells: texts in their places, one after the other. A shorter array is refused. */
static void shown(const uint8_t *stream, size_t length, const struct book *book)
{
    gaflwened_options options = {0};
    gaflwened_fault fault;
    for (uint64_t i = 0; i < book->sizes.sheets; i++) {
        gaflwened_sizes sizes, again;
        gaflwened_cell *cells = array(0, sizeof *cells);
        uint8_t *texts = array(0, 1);
        options.sheet = i;
        options.which = i % 3; /* (whichever) */
        uint32_t code = gaflwened_shown(stream, length, &options, cells, 0, texts, 0, &sizes, &fault);
        const gaflwened_cell *first = book->cells + book->sheets[i].first_cell;
        uint64_t at = 0;
        want(code == (sizes.cells == 0 ? GAFLWENED_OK : GAFLWENED_TOO_SHORT), "the count of what is shown");
        want(sizes.cells == book->sheets[i].cells && sizes.sheets == 0 && sizes.names == 0 && sizes.formulas == 0 && sizes.regions == 0
                 && sizes.is_1904 == book->sizes.is_1904, "the sizes of what is shown");
        free(cells);
        free(texts);
        cells = array(sizes.cells, sizeof *cells);
        texts = array(sizes.text_bytes, 1);
        code = gaflwened_shown(stream, length, &options, cells, (size_t)sizes.cells, texts, (size_t)sizes.text_bytes, &again, &fault);
        want(code == GAFLWENED_OK && memcmp(&sizes, &again, sizeof sizes) == 0, "what is shown");
        for (uint64_t k = 0; code == GAFLWENED_OK && k < sizes.cells; k++) {
            want(cells[k].row == first[k].row && cells[k].column == first[k].column, "the place of what is shown");
            want(cells[k].kind == GAFLWENED_TEXT && cells[k].form == 0 && cells[k].value == at, "a text that is shown");
            at += cells[k].length;
        }
        want(at == sizes.text_bytes, "the bytes of what is shown");
        const size_t lengths[] = {(size_t)sizes.cells, (size_t)sizes.text_bytes};
        for (size_t which = 0; which < 2; which++) {
            if (lengths[which] == 0)
                continue;
            code = gaflwened_shown(stream, length, &options, cells, lengths[0] - (which == 0), texts, lengths[1] - (which == 1),
                                   &again, &fault);
            want(code == GAFLWENED_TOO_SHORT && fault.code == code, "a short array of what is shown");
            want(memcmp(&sizes, &again, sizeof sizes) == 0, "the sizes beside it");
        }
        free(cells);
        free(texts);
    }
    gaflwened_cell cell;
    uint8_t byte;
    gaflwened_sizes sizes;
    options.sheet = book->sizes.sheets;
    uint32_t code = gaflwened_shown(stream, length, &options, &cell, 0, &byte, 0, &sizes, &fault);
    want(code == GAFLWENED_NO_SUCH_SHEET && fault.code == code && fault.first == options.sheet && sizes.cells == 0, "no sheet to show");
}

/* The sheets one by one, and all of them without content. */
static void by_sheet(const uint8_t *stream, size_t length, const struct book *book)
{
    gaflwened_options options = {0};
    gaflwened_sizes sizes;
    gaflwened_fault fault;
    options.which = GAFLWENED_ONE_SHEET;
    for (uint64_t i = 0; i < book->sizes.sheets; i++) {
        options.sheet = i;
        want(gaflwened_measure(stream, length, &options, &sizes, &fault) == GAFLWENED_OK && sizes.sheets == 1
                 && sizes.cells == book->sheets[i].cells && sizes.formulas == book->sheets[i].formulas
                 && sizes.regions == book->sheets[i].regions, "one sheet alone");
    }
    options.sheet = book->sizes.sheets;
    uint32_t code = gaflwened_measure(stream, length, &options, &sizes, &fault);
    want(code == GAFLWENED_NO_SUCH_SHEET && fault.code == code && fault.first == options.sheet && sizes.names == 0, "no such sheet");
    options.which = GAFLWENED_NO_CONTENT;
    want(gaflwened_measure(stream, length, &options, &sizes, &fault) == GAFLWENED_OK && sizes.sheets == book->sizes.sheets
             && sizes.cells == 0 && sizes.formulas == 0 && sizes.regions == 0, "sheets without content");
}

int main(int count, char **words)
{
    if (count != 2)
        return 2;
    size_t length;
    uint8_t *file = read_file(words[1], &length);
    if (file == NULL)
        return 10;
    struct book book = {0};
    const gaflwened_options options = {0};
    gaflwened_fault fault;
    uint8_t *stream;
    uint64_t size;
    uint32_t code = read_stream(file, length, &stream, &size, &fault);
    want(gaflwened_version() == GAFLWENED_VERSION, "the version");
    if (code == GAFLWENED_OK) {
        short_texts(file, length, size);
        code = read_book(stream, (size_t)size, &options, &book, &fault);
    }
    if (code == GAFLWENED_OK) {
        put_book(&book, put_exact_cell);
        parts(&book);
        for (int which = 0; which < 6; which++)
            too_short(stream, (size_t)size, &book, which);
        by_sheet(stream, (size_t)size, &book);
        shown(stream, (size_t)size, &book);
    } else {
        want(fault.code == code, "the code of a fault");
        printf("fault\t%" PRIu32 "\t%" PRIu32 "\t%" PRIu32 "\t%" PRIu64 "\t%" PRIu64 "\t%" PRIu64 "\n", fault.code, fault.part,
               fault.table, fault.first, fault.second, fault.third);
        tell(words[1], &fault);
    }
    free_book(&book);
    free(stream);
    free(file);
    if (failures != 0)
        return 3;
    return code == GAFLWENED_OK ? 0 : 1;
}
