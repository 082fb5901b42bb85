/* sqlite_drive FOLDER [load|dump]: takes a session's updates in SQLite in memory, each by a prepared statement as a transaction of
   its own. The base is loaded first, and indexes, triggers and statistics are made. With `load` it stops there; with `dump` it prints
   all tuples at the end. The folder is made by translate.py. */
#include <sqlite3.h>
#include <stdio.h>
#include <stdlib.h>
#include <string.h>

enum { MOST_STATEMENTS = 512 };

static sqlite3 *database;
static sqlite3_stmt *statements[MOST_STATEMENTS];
static const char *folder;

static void fail(const char *what) {
    fprintf(stderr, "sqlite_drive: %s: %s\n", what, database ? sqlite3_errmsg(database) : "cannot be read");
    exit(1);
}

/* The text of a file in the folder. */
static char *text_of(const char *name) {
    char path[4096];
    snprintf(path, sizeof path, "%s/%s", folder, name);
    FILE *file = fopen(path, "rb");
    if (!file) fail(path);
    fseek(file, 0, SEEK_END);
    long size = ftell(file);
    rewind(file);
    char *text = malloc(size + 1);
    if (!text || fread(text, 1, size, file) != (size_t)size) fail(path);
    text[size] = 0;
    fclose(file);
    return text;
}

/* The next line of a text, or 0 at its end. */
static char *next_line(char **rest) {
    char *line = strsep(rest, "\n");
    return line && *line ? line : 0;
}

static void run(const char *sql) {
    if (sqlite3_exec(database, sql, 0, 0, 0)) fail(sql);
}

static sqlite3_stmt *prepared(const char *sql) {
    sqlite3_stmt *made;
    if (sqlite3_prepare_v3(database, sql, -1, SQLITE_PREPARE_PERSISTENT, &made, 0)) fail(sql);
    return made;
}

/* Prepares all statements; each then includes the triggers that it may fire. */
static void prepare_all(void) {
    char *rest = text_of("statements.sql"), *line;
    for (int k = 0; (line = next_line(&rest)) && k < MOST_STATEMENTS; k++) {
        if (statements[k]) sqlite3_finalize(statements[k]);
        statements[k] = prepared(line);
    }
}

/* Runs the statement of a line with the line's values. */
static void take(char *line) {
    sqlite3_stmt *statement = statements[atoi(strsep(&line, "\t"))];
    char *value;
    for (int k = 1; (value = strsep(&line, "\t")); k++) sqlite3_bind_text(statement, k, value, -1, SQLITE_STATIC);
    if (sqlite3_step(statement) != SQLITE_DONE) fail("a statement");
    sqlite3_reset(statement);
}

static void take_all(char *lines) {
    for (char *line; (line = next_line(&lines));) take(line);
}

static void dump(void) {
    for (char *rest = text_of("dump.sql"), *line; (line = next_line(&rest));) {
        sqlite3_stmt *rows = prepared(line);
        while (sqlite3_step(rows) == SQLITE_ROW)
            for (int k = 0, count = sqlite3_column_count(rows); k < count; k++)
                printf("%s%c", sqlite3_column_text(rows, k), k + 1 < count ? '\t' : '\n');
        sqlite3_finalize(rows);
    }
}

/* Draws a null; its number is larger than any of the base. */
static void fresh(sqlite3_context *context, int count, sqlite3_value **values) {
    static sqlite3_int64 last = 1000000;
    (void)count, (void)values;
    sqlite3_result_int64(context, ++last);
}

int main(int count, char **words) {
    folder = words[1];
    char *updates = text_of("updates.tsv");
    if (sqlite3_open(":memory:", &database)) fail("open");
    sqlite3_create_function(database, "fresh", 0, SQLITE_UTF8 | SQLITE_INNOCUOUS, 0, fresh, 0, 0);
    run("PRAGMA synchronous=OFF; PRAGMA recursive_triggers=ON; BEGIN");
    run(text_of("schema.sql"));
    prepare_all();
    take_all(text_of("base.tsv"));
    run(text_of("triggers.sql"));
    run("ANALYZE; COMMIT");
    prepare_all();
    if (count > 2 && !strcmp(words[2], "load")) return 0;
    take_all(updates);
    if (count > 2 && !strcmp(words[2], "dump")) dump();
    return 0;
}
