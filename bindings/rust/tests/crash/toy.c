/* Toys that append a value to `book` and count it in `record`: one in the right order, three in a wrong one.
 *
 *   toy ORDER K VALUE    K the value's number; a repeat does nothing
 *   toy look             prints record and book
 */
#include <fcntl.h>
#include <stdio.h>
#include <stdlib.h>
#include <string.h>
#include <unistd.h>

static void need(int ok) {
  if (!ok) exit(3);
}

static int load(const char *name, char text[100]) {
  int file = open(name, O_RDONLY);
  need(file >= 0);
  int size = (int)read(file, text, 99);
  need(size >= 0);
  text[size] = 0;
  close(file);
  return size;
}

/* Writes a text behind the first `at` bytes of a file. */
static void save(const char *name, int flags, long at, const char *text, int synced) {
  int file = open(name, O_WRONLY | flags, 0666);
  long size = (long)strlen(text);
  need(file >= 0 && (at < 0 || !ftruncate(file, at)) && lseek(file, at < 0 ? 0 : at, SEEK_SET) >= 0);
  need(write(file, text, (size_t)size) == size && (!synced || !fsync(file)) && !close(file));
}

static void sync_folder(void) {
  int folder = open(".", O_RDONLY | O_DIRECTORY);
  need(folder >= 0 && !fsync(folder) && !close(folder));
}

int main(int count, char **words) {
  char record[100], book[100];
  load("record", record);
  int size = load("book", book);
  need(record[0] && size >= 4 * atoi(record));
  if (count == 2) return printf("%s %.*s\n", record, 4 * atoi(record), book) < 0;
  const char *order = words[1], *k = words[2], *value = words[3];
  int synced = strcmp(order, "unsynced") != 0;
  if (!strcmp(record, k)) {
    if (synced) sync_folder();
    return 0;
  }
  if (!strcmp(order, "in-place")) {
    save("book", O_APPEND, -1, value, 1);
    save("record", O_TRUNC, -1, k, 1);
    return 0;
  }
  if (!strcmp(order, "record-first")) {
    save("record", 0, 0, k, 1);
    save("book", 0, 4 * atoi(record), value, 1);
    return 0;
  }
  if (synced) sync_folder();
  save("book", 0, 4 * atoi(record), value, synced);
  save("record.new", O_CREAT | O_TRUNC, -1, k, synced);
  need(!rename("record.new", "record"));
  if (synced) sync_folder();
  return 0;
}
