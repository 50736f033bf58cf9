/* Reads the tables of the folder tests. Their heads explain the columns. test.c includes this file. */

/* The number of an error, the name of its variant in Rust, and its text. */
struct error_row { uint32_t number; const char *name, *text; };
static struct error_row error_rows[46];

/* A row of a table, for one reader, one profile and one handler. A cell that is empty says nothing. */
struct row {
    const char *reader, *handler;
    int strict;
    const char *bits, *text, *fields, *canonical, *instant, *error, *at, *part, *reason, *message, *calls;
};

enum { MOST_CELLS = 16 };

/* A table that is being read: the names of its columns, and the cells of one line. */
struct table {
    FILE *lines;
    char names_line[256], line[8192];
    char *names[MOST_CELLS], *cells[MOST_CELLS];
    size_t count;
};

/* Splits a line at its tabs. Returns the number of cells. */
static size_t split(char *line, char **cells) {
    size_t count = 0;
    line[strcspn(line, "\n")] = 0;
    while (count < MOST_CELLS) {
        cells[count++] = line;
        line += strcspn(line, "\t");
        if (*line == 0) {
            break;
        }
        *line++ = 0;
    }
    return count;
}

/* Opens a table, and reads the names of its columns. */
static void open_table(struct table *it, const char *folder, const char *file) {
    char path[1024];
    snprintf(path, sizeof path, "%s/%s", folder, file);
    it->lines = fopen(path, "r");
    do {
        if (it->lines == NULL || fgets(it->names_line, sizeof it->names_line, it->lines) == NULL) {
            printf("expected the file %s\n", path);
            exit(2);
        }
    } while (it->names_line[0] == '#');
    it->count = split(it->names_line, it->names);
}

/* Reads the next line of a table. Closes the table and returns 0 if there is none. */
static int next_line(struct table *it) {
    if (fgets(it->line, sizeof it->line, it->lines) == NULL) {
        fclose(it->lines);
        return 0;
    }
    if (strchr(it->line, '\n') == NULL || split(it->line, it->cells) != it->count) {
        printf("expected a line with %lu cells, found: %s\n", (unsigned long)it->count, it->line);
        exit(2);
    }
    return 1;
}

/* Returns the cell of a column, or an empty cell if the table has no such column. */
static char *cell(const struct table *it, const char *name) {
    static char nothing[1];
    size_t i;
    for (i = 0; i < it->count; i++) {
        if (!strcmp(it->names[i], name)) {
            return it->cells[i];
        }
    }
    return nothing;
}

/* Copies the next item of a list with commas to `item`, which has 32 bytes, and moves the list to the item after it. Returns 0 if there is none. */
static int next_item(const char **list, char *item) {
    size_t length = *list == NULL ? 32 : strcspn(*list, ",");
    if (length >= 32) {
        return 0;
    }
    memcpy(item, *list, length);
    item[length] = 0;
    *list = (*list)[length] == ',' ? *list + length + 1 : NULL;
    return 1;
}

/* Calls `test` for each reader, profile and handler of a line. */
static void each_case(const struct table *it, void (*test)(const struct row *)) {
    const char *readers = cell(it, "readers"), *profile = cell(it, "profile");
    char reader[32], handler[32];
    struct row row = { reader, handler, 0, cell(it, "bits"), cell(it, "text"), cell(it, "fields"), cell(it, "canonical"), cell(it, "instant"),
        cell(it, "error"), cell(it, "at"), cell(it, "part"), cell(it, "reason"), cell(it, "message"), cell(it, "calls") };
    while (next_item(&readers, reader)) {
        int has_profiles = !strcmp(reader, "month-day") || !strcmp(reader, "time") || !strcmp(reader, "duration");
        for (row.strict = 0; row.strict <= has_profiles; row.strict++) {
            const char *handlers = cell(it, "handlers");
            if (strcmp(profile, row.strict ? "crate" : "strict") != 0 && !(row.strict && *profile == 0)) {
                while (next_item(&handlers, handler)) {
                    test(&row);
                }
            }
        }
    }
}

/* Calls `test` for each case of a table. Returns the number of lines. */
static unsigned long each_row(const char *folder, const char *file, void (*test)(const struct row *)) {
    struct table table;
    unsigned long count = 0;
    open_table(&table, folder, file);
    for (; next_line(&table); count++) {
        each_case(&table, test);
    }
    return count;
}

/* Reads the numbers, names and texts of the errors. */
static void read_errors(const char *folder) {
    static char lines[sizeof error_rows / sizeof error_rows[0]][256];
    struct table table;
    size_t count = 0;
    open_table(&table, folder, "errors.tsv");
    for (; next_line(&table) && count < sizeof error_rows / sizeof error_rows[0]; count++) {
        struct error_row *row = &error_rows[count];
        row->number = (uint32_t)atoi(cell(&table, "number"));
        snprintf(lines[count], sizeof lines[count], "%s%c%s", cell(&table, "error"), '\n', cell(&table, "text"));
        row->name = lines[count];
        row->text = strchr(lines[count], '\n') + 1;
        lines[count][strcspn(lines[count], "\n")] = 0;
    }
}

static unsigned hexadecimal(const char *digits, size_t count) {
    char copy[5] = { 0 };
    memcpy(copy, digits, count);
    return (unsigned)strtoul(copy, NULL, 16);
}

/* Writes the first code unit of a text to `unit`. Returns how many characters of the table stand for it. */
static size_t row_unit(const char *text, uint16_t *unit) {
    static const char letters[] = "tnr\\", units[] = "\t\n\r\\";
    if (text[0] != '\\') {
        *unit = (unsigned char)text[0];
        return 1;
    }
    if (text[1] == 'x' || text[1] == 'u') {
        size_t digits = text[1] == 'x' ? 2 : 4;
        *unit = (uint16_t)hexadecimal(text + 2, digits);
        return 2 + digits;
    }
    *unit = (unsigned char)units[strchr(letters, text[1]) - letters];
    return 2;
}
