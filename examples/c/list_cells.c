/* list_cells.c: writes what a workbook holds, line by line, as `xls dump` does.
 *
 * From the top of the repository, after `tools/build xls_c`, with the folder of the Rattle kit for KIT:
 *
 *     cc -Iinclude examples/c/list_cells.c crates/xls_c/out/libxls_c.a KIT/c/liblibc_c.a -o list_cells
 *     ./list_cells samples/ledger.xls
 *
 * The fields of a line are separated by tabs. Rows and columns count from 0. A number has the digits that read back as the same double.
 */
#include <inttypes.h>
#include <stdio.h>
#include <stdlib.h>
#include <string.h>

#include "gaflwened.h"

/* What a workbook holds, in memory of this program. */
struct book {
    gaflwened_sizes sizes;
    gaflwened_sheet *sheets;
    gaflwened_name *names;
    gaflwened_cell *cells;
    gaflwened_formula *formulas;
    gaflwened_region *regions;
    uint8_t *texts;
};

/* Memory for so many items. It is never NULL, as the calls want it: where memory runs out the program ends with status 5. */
static void *array(uint64_t count, size_t size)
{
    void *items = NULL;
    if (count < SIZE_MAX / size)
        items = malloc(((size_t)count + 1) * size);
    if (items == NULL) {
        fputs("list_cells: out of memory\n", stderr);
        exit(5);
    }
    return items;
}

/* The bytes of a file; NULL where it can't be read. */
static uint8_t *read_file(const char *path, size_t *length)
{
    FILE *file = fopen(path, "rb");
    if (file == NULL)
        return NULL;
    size_t room = 1 << 16, count = 0, more;
    uint8_t *bytes = array(room, 1);
    while ((more = fread(bytes + count, 1, room - count, file)) != 0) {
        count += more;
        if (count == room) {
            uint8_t *larger = array(room *= 2, 1);
            memcpy(larger, bytes, count);
            free(bytes);
            bytes = larger;
        }
    }
    if (ferror(file)) {
        free(bytes);
        bytes = NULL;
    }
    fclose(file);
    *length = count;
    return bytes;
}

/* The workbook's stream of a file: first its size, then its bytes. */
static uint32_t read_stream(const uint8_t *file, size_t length, uint8_t **stream, uint64_t *size, gaflwened_fault *fault)
{
    *stream = array(0, 1);
    uint32_t code = gaflwened_stream(file, length, *stream, 0, size, fault);
    if (code != GAFLWENED_TOO_SHORT)
        return code;
    free(*stream);
    *stream = array(*size, 1);
    return gaflwened_stream(file, length, *stream, (size_t)*size, size, fault);
}

/* What a stream holds: first how much, then the arrays. */
static uint32_t read_book(const uint8_t *stream, size_t length, const gaflwened_options *options, struct book *book,
                          gaflwened_fault *fault)
{
    gaflwened_sizes *sizes = &book->sizes;
    uint32_t code = gaflwened_measure(stream, length, options, sizes, fault);
    if (code != GAFLWENED_OK)
        return code;
    book->sheets = array(sizes->sheets, sizeof *book->sheets);
    book->names = array(sizes->names, sizeof *book->names);
    book->cells = array(sizes->cells, sizeof *book->cells);
    book->formulas = array(sizes->formulas, sizeof *book->formulas);
    book->regions = array(sizes->regions, sizeof *book->regions);
    book->texts = array(sizes->text_bytes, 1);
    return gaflwened_read(stream, length, options,
                          book->sheets, (size_t)sizes->sheets,
                          book->names, (size_t)sizes->names,
                          book->cells, (size_t)sizes->cells,
                          book->formulas, (size_t)sizes->formulas,
                          book->regions, (size_t)sizes->regions,
                          book->texts, (size_t)sizes->text_bytes,
                          sizes, fault);
}

static void free_book(struct book *book)
{
    free(book->sheets);
    free(book->names);
    free(book->cells);
    free(book->formulas);
    free(book->regions);
    free(book->texts);
}

/* A text, with escapes for what would end a field or a line. */
static void put_text(const struct book *book, uint64_t offset, uint64_t length)
{
    for (uint64_t i = offset; i < offset + length; i++) {
        switch (book->texts[i]) {
        case '\\': fputs("\\\\", stdout); break;
        case '\n': fputs("\\n", stdout); break;
        case '\r': fputs("\\r", stdout); break;
        case '\t': fputs("\\t", stdout); break;
        default: putchar(book->texts[i]);
        }
    }
}

/* A number of days as a date, a time of day or a duration. */
static void put_days(uint64_t bits, uint32_t is_1904, uint32_t is_duration)
{
    uint8_t text[400];
    uint64_t size;
    gaflwened_serial(bits, is_1904, is_duration, text, sizeof text, &size);
    fwrite(text, 1, (size_t)size, stdout);
}

static void put_number(uint64_t bits)
{
    double number;
    memcpy(&number, &bits, sizeof number);
    printf("%.17g", number);
}

static const char *error_text(uint64_t code)
{
    switch (code) {
    case GAFLWENED_ERROR_NULL: return "#NULL!";
    case GAFLWENED_ERROR_DIV_0: return "#DIV/0!";
    case GAFLWENED_ERROR_VALUE: return "#VALUE!";
    case GAFLWENED_ERROR_REF: return "#REF!";
    case GAFLWENED_ERROR_NAME: return "#NAME?";
    case GAFLWENED_ERROR_NUM: return "#NUM!";
    case GAFLWENED_ERROR_NA: return "#N/A";
    default: return "#DATA!";
    }
}

static void put_cell(const struct book *book, const gaflwened_cell *cell)
{
    static const char *const kinds[] = {"blank", "float", "date", "span", "bool", "error", "text", "date", "span", "int"};
    printf("cell\t%" PRIu32 "\t%" PRIu32 "\t%s\t", cell->row, cell->column, kinds[cell->kind]);
    switch (cell->kind) {
    case GAFLWENED_NUMBER:
    case GAFLWENED_WHOLE_NUMBER: put_number(cell->value); break;
    case GAFLWENED_DATE_TIME: put_days(cell->value, book->sizes.is_1904, 0); break;
    case GAFLWENED_DURATION: put_days(cell->value, book->sizes.is_1904, 1); break;
    case GAFLWENED_BOOLEAN: fputs(cell->value ? "true" : "false", stdout); break;
    case GAFLWENED_ERROR: fputs(error_text(cell->value), stdout); break;
    case GAFLWENED_TEXT:
    case GAFLWENED_DATE_TEXT:
    case GAFLWENED_DURATION_TEXT: put_text(book, cell->value, cell->length); break;
    }
    putchar('\n');
}

static void put_sheet_line(const struct book *book, const gaflwened_sheet *sheet)
{
    static const char *const kinds[] = {"worksheet", "dialog", "macro", "chart", "vba"};
    static const char *const visibilities[] = {"visible", "hidden", "veryhidden"};
    fputs("sheet\t", stdout);
    put_text(book, sheet->name.offset, sheet->name.length);
    printf("\t%s\t%s\n", kinds[sheet->kind], visibilities[sheet->visibility]);
}

static void put_formulas(const struct book *book, const gaflwened_sheet *sheet)
{
    for (uint64_t i = 0; i < sheet->formulas; i++) {
        const gaflwened_formula *formula = &book->formulas[sheet->first_formula + i];
        if (formula->text.length == 0)
            continue;
        printf("formula\t%" PRIu32 "\t%" PRIu32 "\t", formula->row, formula->column);
        put_text(book, formula->text.offset, formula->text.length);
        putchar('\n');
    }
}

static void put_regions(const struct book *book, const gaflwened_sheet *sheet)
{
    for (uint64_t i = 0; i < sheet->regions; i++) {
        const gaflwened_region *region = &book->regions[sheet->first_region + i];
        printf("merge\t%" PRIu32 "\t%" PRIu32 "\t%" PRIu32 "\t%" PRIu32 "\n", region->first_row, region->first_column,
               region->last_row, region->last_column);
    }
}

static void put_names(const struct book *book)
{
    for (uint64_t i = 0; i < book->sizes.names; i++) {
        const gaflwened_name *name = &book->names[i];
        fputs("name\t", stdout);
        put_text(book, name->name.offset, name->name.length);
        putchar('\t');
        put_text(book, name->formula.offset, name->formula.length);
        putchar('\n');
    }
}

/* All lines; `put` writes those of the cells. */
static void put_book(const struct book *book, void (*put)(const struct book *, const gaflwened_cell *))
{
    printf("dates\t%d\n", book->sizes.is_1904 ? 1904 : 1900);
    put_names(book);
    for (uint64_t i = 0; i < book->sizes.sheets; i++) {
        const gaflwened_sheet *sheet = &book->sheets[i];
        put_sheet_line(book, sheet);
        for (uint64_t n = 0; n < sheet->cells; n++)
            put(book, &book->cells[sheet->first_cell + n]);
        put_formulas(book, sheet);
        put_regions(book, sheet);
    }
}

/* Tells on standard error why a file is refused. */
static void tell(const char *path, const gaflwened_fault *fault)
{
    uint8_t none = 0;
    uint64_t size;
    gaflwened_fault_text(fault, &none, 0, &size);
    uint8_t *text = array(size, 1);
    gaflwened_fault_text(fault, text, (size_t)size, &size);
    fprintf(stderr, "list_cells: %s: %.*s\n", path, (int)size, (const char *)text);
    free(text);
}

int main(int count, char **words)
{
    if (count != 2) {
        fputs("list_cells FILE\n", stderr);
        return 2;
    }
    size_t length;
    uint8_t *file = read_file(words[1], &length);
    if (file == NULL) {
        perror(words[1]);
        return 10;
    }
    struct book book = {0};
    gaflwened_options options = {0};
    options.all_functions = 1;
    gaflwened_fault fault;
    uint8_t *stream;
    uint64_t size;
    uint32_t code = read_stream(file, length, &stream, &size, &fault);
    if (code == GAFLWENED_OK)
        code = read_book(stream, (size_t)size, &options, &book, &fault);
    if (code == GAFLWENED_OK)
        put_book(&book, put_cell);
    else
        tell(words[1], &fault);
    free_book(&book);
    free(stream);
    free(file);
    if (fflush(stdout) != 0)
        return 4;
    return code == GAFLWENED_OK ? 0 : 1;
}
