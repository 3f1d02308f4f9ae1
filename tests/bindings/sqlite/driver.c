// Runs statements of SQL with the extension, as a program in C does: driver EXTENSION [ROWS] <STATEMENTS
//
// Each line of standard input is a statement. Each of its rows is a line that begins with '= ', and if it fails its last line is '! ', the
// code of the error and what that says. After ROWS rows a statement is given up. Nothing is asked of the heap but by SQLite.
#include <sqlite3.h>
#include <stdio.h>
#include <stdlib.h>

static char line[1 << 16], in[1 << 16], out[1 << 16];

static void say_error(sqlite3 *db) { printf("! %d %s\n", sqlite3_extended_errcode(db), sqlite3_errmsg(db)); }

// Says a row, and whether memory was there for each text of it.
static int say_row(sqlite3_stmt *statement) {
  int count = sqlite3_column_count(statement);
  for (int column = 0; column < count; column += 1)
    if (sqlite3_column_type(statement, column) != SQLITE_NULL && !sqlite3_column_text(statement, column)) return 0;
  fputs("=", stdout);
  for (int column = 0; column < count; column += 1) {
    const unsigned char *text = sqlite3_column_text(statement, column);
    printf(" %s", text ? (const char *)text : "NULL");
  }
  fputs("\n", stdout);
  return 1;
}

static void run(sqlite3 *db, int most) {
  sqlite3_stmt *statement;
  int status = sqlite3_prepare_v2(db, line, -1, &statement, NULL), rows = 0;
  if (status == SQLITE_OK) status = SQLITE_ROW;
  while (rows < most && status == SQLITE_ROW) {
    status = sqlite3_step(statement);
    if (status == SQLITE_ROW && !say_row(statement)) status = SQLITE_NOMEM;
    rows += 1;
  }
  if (status != SQLITE_DONE && status != SQLITE_ROW) say_error(db);
  sqlite3_finalize(statement);
}

int main(int count, char **words) {
  sqlite3 *db;
  char *why = NULL;
  int most = count > 2 ? atoi(words[2]) : 1 << 30;
  setvbuf(stdin, in, _IOFBF, sizeof in);
  setvbuf(stdout, out, _IOFBF, sizeof out);
  if (sqlite3_open(":memory:", &db) != SQLITE_OK || sqlite3_db_config(db, SQLITE_DBCONFIG_ENABLE_LOAD_EXTENSION, 1, NULL) != SQLITE_OK ||
      sqlite3_load_extension(db, words[1], NULL, &why) != SQLITE_OK) {
    printf("! %s\n", why ? why : sqlite3_errmsg(db));
    return 1;
  }
  while (fgets(line, sizeof line, stdin)) run(db, most);
  sqlite3_close(db);
  sqlite3_shutdown();
  return 0;
}
