/* Stores COUNT blobs of LEAST to MOST bytes and eight more, and fetches them (times.py): in a table of libsqlite3, or in
 * a log as simple as can be.
 *
 *     gcc -O2 times.c -lsqlite3 -o times
 *     ./times fill FILE KIND COUNT LEAST MOST BATCH
 *     ./times open FILE KIND
 *
 * KIND is `sqlite` or `log`, and `sqlite,hash` or `log,hash` if each key is the SHA-256 of the blob's preimage, taken
 * when it is stored and again when it is fetched. `open` opens the file, stores two blobs more, and flushes. The database
 * has a write-ahead log, and each commit is on the disk before the next blob (synchronous FULL). The log appends the
 * bodies of a batch and a row for each blob, and syncs; then it writes a gate, and syncs. It finds places by a table in
 * memory. */
#include <fcntl.h>
#include <unistd.h>
#include <sqlite3.h>
#include <stdint.h>
#include <stdio.h>
#include <stdlib.h>
#include <string.h>
#include <time.h>

static uint64_t state = 88172645463325252ull;

static uint64_t drawn(void) {
    state ^= state << 13;
    state ^= state >> 7;
    state ^= state << 17;
    return state;
}

static double now(void) {
    struct timespec t;
    clock_gettime(CLOCK_MONOTONIC, &t);
    return t.tv_sec * 1e3 + t.tv_nsec / 1e6;
}

static uint32_t rounds[64];

static uint32_t turn(uint32_t x, int n) { return (x >> n) | (x << (32 - n)); }

/* The fractional parts of the cube roots of the first 64 primes. */
static void make_rounds(void) {
    int count = 0;
    for (int n = 2; count < 64; n++) {
        int prime = 1;
        for (int d = 2; d * d <= n; d++) prime &= n % d != 0;
        if (!prime) continue;
        unsigned __int128 low = 0, high = (unsigned __int128)8 << 32;
        while (high - low > 1) {
            unsigned __int128 mid = (low + high) / 2;
            if (mid * mid * mid <= (unsigned __int128)n << 96) low = mid; else high = mid;
        }
        rounds[count++] = (uint32_t)low;
    }
}

static void block(uint32_t *h, const unsigned char *p) {
    uint32_t w[64], v[8];
    for (int i = 0; i < 16; i++) w[i] = p[4 * i] << 24 | p[4 * i + 1] << 16 | p[4 * i + 2] << 8 | p[4 * i + 3];
    for (int i = 16; i < 64; i++) {
        uint32_t a = w[i - 15], b = w[i - 2];
        w[i] = w[i - 16] + (turn(a, 7) ^ turn(a, 18) ^ a >> 3) + w[i - 7] + (turn(b, 17) ^ turn(b, 19) ^ b >> 10);
    }
    memcpy(v, h, 32);
    for (int i = 0; i < 64; i++) {
        uint32_t a = v[0], e = v[4];
        uint32_t s = v[7] + (turn(e, 6) ^ turn(e, 11) ^ turn(e, 25)) + ((e & v[5]) ^ (~e & v[6])) + rounds[i] + w[i];
        uint32_t t = (turn(a, 2) ^ turn(a, 13) ^ turn(a, 22)) + ((a & v[1]) ^ (a & v[2]) ^ (v[1] & v[2]));
        memmove(v + 1, v, 28);
        v[4] += s;
        v[0] = s + t;
    }
    for (int i = 0; i < 8; i++) h[i] += v[i];
}

/* The first 16 bytes of the SHA-256 of eight bytes of 0 and the blob: a blob without children. */
static void key_of(const unsigned char *blob, size_t len, unsigned char *key) {
    static unsigned char *text;
    static size_t room;
    uint32_t h[8] = {0x6a09e667, 0xbb67ae85, 0x3c6ef372, 0xa54ff53a, 0x510e527f, 0x9b05688c, 0x1f83d9ab, 0x5be0cd19};
    size_t all = (len + 8 + 9 + 63) / 64 * 64;
    if (room < all) text = realloc(text, room = all);
    memset(text, 0, 8);
    memcpy(text + 8, blob, len);
    memset(text + 8 + len, 0, all - 8 - len);
    text[8 + len] = 0x80;
    for (int i = 0; i < 8; i++) text[all - 1 - i] = (uint64_t)(8 * (len + 8)) >> 8 * i;
    for (size_t at = 0; at < all; at += 64) block(h, text + at);
    for (int i = 0; i < 16; i++) key[i] = h[i / 4] >> (24 - 8 * (i % 4));
}

/* ---- the log */

struct place { unsigned char key[16]; uint64_t at; uint64_t size; };

static int file;
static uint64_t end = 16, rooms, taken, held, rows_held;
static struct place *places;
static unsigned char *bodies, *rows;
static size_t room_of_bodies, room_of_rows;

static void must(int holds, const char *what) {
    if (!holds) { perror(what); exit(1); }
}

static struct place *room_for(const unsigned char *key) {
    uint64_t at;
    memcpy(&at, key, 8);
    for (at &= rooms - 1; places[at].size && memcmp(places[at].key, key, 16); at = (at + 1) & (rooms - 1));
    return &places[at];
}

static void index_place(const unsigned char *key, uint64_t at, uint64_t size) {
    if (2 * taken >= rooms) {
        struct place *old = places;
        uint64_t many = rooms;
        rooms = rooms ? 2 * rooms : 64;
        places = calloc(rooms, sizeof *places);
        for (uint64_t i = 0; i < many; i++) if (old[i].size) *room_for(old[i].key) = old[i];
        free(old);
    }
    struct place *place = room_for(key);
    taken += !place->size;
    memcpy(place->key, key, 16);
    place->at = at;
    place->size = size;
}

static unsigned char *grown(unsigned char *bytes, size_t *room, size_t wanted) {
    if (wanted <= *room) return bytes;
    *room = 2 * wanted;
    return realloc(bytes, *room);
}

/* A batch: its gate, the lengths of bodies and rows, bodies, rows; a row is a key and a size. */
static void log_open(const char *name) {
    file = open(name, O_RDWR | O_CREAT, 0644);
    must(file >= 0 && fdatasync(file) == 0, "open");
    uint64_t size = lseek(file, 0, SEEK_END);
    unsigned char head[17];
    while (end + 17 <= size && pread(file, head, 17, end) == 17 && head[0] == 1) {
        uint64_t many, wide, at = end + 17;
        memcpy(&many, head + 1, 8);
        memcpy(&wide, head + 9, 8);
        unsigned char *read = malloc(wide);
        must(pread(file, read, wide, at + many) == (ssize_t)wide, "read");
        for (uint64_t i = 0; i < wide; i += 24) {
            uint64_t own;
            memcpy(&own, read + i + 16, 8);
            index_place(read + i, at, own);
            at += own;
        }
        free(read);
        end += 17 + many + wide;
    }
    if (size < 17) must(pwrite(file, "a log as it may\n", 16, 0) == 16 && pwrite(file, "", 1, 16) == 1 && fdatasync(file) == 0, "new");
}

static void log_put(const unsigned char *key, const unsigned char *blob, size_t len) {
    if (rooms && room_for(key)->size) return;
    bodies = grown(bodies, &room_of_bodies, held + len);
    rows = grown(rows, &room_of_rows, rows_held + 25);
    memcpy(bodies + held, blob, len);
    memcpy(rows + rows_held, key, 16);
    uint64_t own = len;
    memcpy(rows + rows_held + 16, &own, 8);
    index_place(key, end + 17 + held, len);
    held += len;
    rows_held += 24;
}

static void log_flush(void) {
    unsigned char head[16];
    if (!rows_held) return;
    memcpy(head, &held, 8);
    memcpy(head + 8, &rows_held, 8);
    rows[rows_held] = 0;
    must(pwrite(file, bodies, held, end + 17) == (ssize_t)held, "bodies");
    must(pwrite(file, rows, rows_held + 1, end + 17 + held) == (ssize_t)rows_held + 1, "rows");
    must(pwrite(file, head, 16, end + 1) == 16 && fdatasync(file) == 0, "head");
    must(pwrite(file, "\1", 1, end) == 1 && fdatasync(file) == 0, "gate");
    end += 17 + held + rows_held;
    held = rows_held = 0;
}

static size_t log_get(const unsigned char *key, unsigned char **blob) {
    struct place *place = room_for(key);
    must(place->size != 0, "missing");
    *blob = malloc(place->size);
    must(pread(file, *blob, place->size, place->at) == (ssize_t)place->size, "read");
    return place->size;
}

/* ---- the database */

static sqlite3 *db;
static sqlite3_stmt *put, *get;

static void db_open(const char *name) {
    sqlite3_open(name, &db);
    sqlite3_exec(db, "PRAGMA journal_mode=WAL; PRAGMA synchronous=FULL;", 0, 0, 0);
    sqlite3_exec(db, "CREATE TABLE IF NOT EXISTS blobs (key BLOB PRIMARY KEY, bytes BLOB NOT NULL, children BLOB NOT NULL) STRICT", 0, 0, 0);
    sqlite3_prepare_v2(db, "INSERT INTO blobs (key, bytes, children) VALUES (?1, ?2, x'')", -1, &put, 0);
    sqlite3_prepare_v2(db, "SELECT bytes, children FROM blobs WHERE key = ?1", -1, &get, 0);
    sqlite3_exec(db, "BEGIN", 0, 0, 0);
}

static void db_put(const unsigned char *key, const unsigned char *blob, size_t len) {
    sqlite3_bind_blob(put, 1, key, 16, 0);
    sqlite3_bind_blob(put, 2, blob, len, 0);
    if (sqlite3_step(put) != SQLITE_DONE) { puts(sqlite3_errmsg(db)); exit(1); }
    sqlite3_reset(put);
}

static size_t db_get(const unsigned char *key, unsigned char **blob) {
    sqlite3_bind_blob(get, 1, key, 16, 0);
    if (sqlite3_step(get) != SQLITE_ROW) { puts("missing"); exit(1); }
    int len = sqlite3_column_bytes(get, 0);
    *blob = malloc(len);
    memcpy(*blob, sqlite3_column_blob(get, 0), len);
    sqlite3_reset(get);
    return len;
}

/* ---- either */

static int is_log, is_hashed;

static void put_blob(unsigned char *key, const unsigned char *blob, size_t len) {
    if (is_hashed) key_of(blob, len, key);
    else for (int i = 0; i < 2; i++) { uint64_t word = drawn(); memcpy(key + 8 * i, &word, 8); }
    if (is_log) log_put(key, blob, len); else db_put(key, blob, len);
}

static void flush(void) {
    if (is_log) log_flush(); else sqlite3_exec(db, "COMMIT; BEGIN", 0, 0, 0);
}

static uint64_t get_blob(const unsigned char *key) {
    unsigned char *blob, again[16];
    size_t len = is_log ? log_get(key, &blob) : db_get(key, &blob);
    if (is_hashed) {
        key_of(blob, len, again);
        if (memcmp(key, again, 16)) { puts("another key"); exit(1); }
    }
    free(blob);
    return len;
}

static void fill(uint64_t count, uint64_t least, uint64_t most, uint64_t batch) {
    unsigned char *all = malloc(most + 24), *blob = malloc(most + 24), *keys = malloc(16 * count);
    for (uint64_t i = 0; i < most / 8 + 1; i++) { uint64_t x = drawn(); memcpy(all + 8 * i, &x, 8); }
    double start = now();
    for (uint64_t n = 0; n < count; n++) {
        uint64_t len = least + drawn() % (most - least + 1);
        memcpy(blob, &n, 8);
        memcpy(blob + 8, all, len);
        put_blob(keys + 16 * n, blob, len + 8);
        if (n % batch == batch - 1) flush();
    }
    flush();
    double stored = now() - start;
    uint64_t bytes = 0;
    start = now();
    for (uint64_t n = 0; n < count; n++) bytes += get_blob(keys + 16 * (n * 7919 % count));
    printf("%lu bytes: stored in %.0f us, fetched in %.0f us\n", bytes, 1e3 * stored, 1e3 * (now() - start));
}

int main(int count_of_words, char **words) {
    if (count_of_words < 4) return 2;
    is_log = !strncmp(words[3], "log", 3);
    is_hashed = strstr(words[3], "hash") != 0;
    make_rounds();
    double start = now();
    if (is_log) log_open(words[2]); else db_open(words[2]);
    double opened = now() - start;
    if (count_of_words == 8) {
        fill(atoll(words[4]), atoll(words[5]), atoll(words[6]), atoll(words[7]));
    } else {
        unsigned char key[16];
        state = 1234567;
        start = now();
        put_blob(key, (unsigned char *)"one of two", 10);
        put_blob(key, (unsigned char *)"two of two", 10);
        flush();
        printf("opened in %.0f us, saved in %.0f us\n", 1e3 * opened, 1e3 * (now() - start));
    }
    if (!is_log) { sqlite3_finalize(put); sqlite3_finalize(get); sqlite3_exec(db, "COMMIT", 0, 0, 0); sqlite3_close(db); }
    return 0;
}
