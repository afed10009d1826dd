// Transfers between accounts in SQLite, by several threads, and how many a second.
//
//     sqlite FILE THREADS TRANSFERS
//
// The database is made anew, with its log (WAL) and `synchronous=FULL`. Each thread has a connection of its own and makes its share of the
// transfers, each between two different accounts: `BEGIN IMMEDIATE`, two updates, `COMMIT`. SQLite has one writer at a time. A thread that
// finds it busy sleeps for a tenth of a millisecond and tries again, as long as it takes. The clock runs from when all connections stand
// until the last thread is done. It prints transfers a second, and ends with status 1 where SQLite refuses a call or the accounts' sum is
// another one at the end.
#include <pthread.h>
#include <sqlite3.h>
#include <stdio.h>
#include <stdlib.h>
#include <string.h>
#include <time.h>
#include <unistd.h>

enum { ACCOUNTS = 1000, FUNDS = 100000, PAUSE_IN_MICROSECONDS = 100, MOST_THREADS = 64 };

struct work {
    const char *path;
    long transfers;
    unsigned seed;
    pthread_barrier_t *ready;
};

static void fail(sqlite3 *db, const char *what) {
    fprintf(stderr, "sqlite: %s: %s\n", what, db ? sqlite3_errmsg(db) : "no database");
    exit(1);
}

static int wait_for_writer(void *unused, int times) {
    (void)unused, (void)times;
    usleep(PAUSE_IN_MICROSECONDS);
    return 1;
}

static void run(sqlite3 *db, const char *text) {
    if (sqlite3_exec(db, text, NULL, NULL, NULL) != SQLITE_OK)
        fail(db, text);
}

static sqlite3 *opened(const char *path) {
    sqlite3 *db = NULL;
    if (sqlite3_open(path, &db) != SQLITE_OK)
        fail(db, path);
    sqlite3_busy_handler(db, wait_for_writer, NULL);
    run(db, "PRAGMA journal_mode=WAL; PRAGMA synchronous=FULL;");
    return db;
}

static sqlite3_stmt *prepared(sqlite3 *db, const char *text) {
    sqlite3_stmt *statement = NULL;
    if (sqlite3_prepare_v2(db, text, -1, &statement, NULL) != SQLITE_OK)
        fail(db, text);
    return statement;
}

static void step(sqlite3 *db, sqlite3_stmt *statement) {
    if (sqlite3_step(statement) != SQLITE_DONE || sqlite3_reset(statement) != SQLITE_OK)
        fail(db, sqlite3_sql(statement));
}

static void add(sqlite3 *db, sqlite3_stmt *update, int amount, int account) {
    sqlite3_bind_int(update, 1, amount);
    sqlite3_bind_int(update, 2, account);
    step(db, update);
}

static void *transfer_all(void *given) {
    struct work *work = given;
    sqlite3 *db = opened(work->path);
    sqlite3_stmt *begin = prepared(db, "BEGIN IMMEDIATE");
    sqlite3_stmt *update = prepared(db, "UPDATE acc SET bal = bal + ? WHERE a = ?");
    sqlite3_stmt *commit = prepared(db, "COMMIT");
    pthread_barrier_wait(work->ready);
    for (long done = 0; done < work->transfers; done++) {
        int from = rand_r(&work->seed) % ACCOUNTS;
        int to = (from + 1 + rand_r(&work->seed) % (ACCOUNTS - 1)) % ACCOUNTS;
        int amount = 1 + rand_r(&work->seed) % 49;
        step(db, begin);
        add(db, update, -amount, from + 1);
        add(db, update, amount, to + 1);
        step(db, commit);
    }
    sqlite3_finalize(begin);
    sqlite3_finalize(update);
    sqlite3_finalize(commit);
    sqlite3_close(db);
    return NULL;
}

static void make(const char *path) {
    const char *ends[] = {"", "-wal", "-shm", "-journal"};
    char name[4096];
    for (size_t i = 0; i < sizeof ends / sizeof *ends; i++) {
        snprintf(name, sizeof name, "%s%s", path, ends[i]);
        unlink(name);
    }
    sqlite3 *db = opened(path);
    run(db, "CREATE TABLE acc (a INTEGER PRIMARY KEY, bal INTEGER); BEGIN;");
    sqlite3_stmt *fund = prepared(db, "INSERT INTO acc VALUES (?, ?)");
    for (int account = 1; account <= ACCOUNTS; account++)
        add(db, fund, account, FUNDS);
    sqlite3_finalize(fund);
    run(db, "COMMIT");
    sqlite3_close(db);
}

static void check(const char *path) {
    sqlite3 *db = opened(path);
    sqlite3_stmt *sum = prepared(db, "SELECT sum(bal) FROM acc");
    if (sqlite3_step(sum) != SQLITE_ROW || sqlite3_column_int64(sum, 0) != (sqlite3_int64)ACCOUNTS * FUNDS)
        fail(db, "the sum of the accounts isn't what it was");
    sqlite3_finalize(sum);
    sqlite3_close(db);
}

static double now(void) {
    struct timespec time;
    clock_gettime(CLOCK_MONOTONIC, &time);
    return time.tv_sec + time.tv_nsec / 1e9;
}

int main(int count, char **words) {
    long threads = count == 4 ? atol(words[2]) : 0, transfers = count == 4 ? atol(words[3]) : 0;
    if (threads < 1 || threads > MOST_THREADS || transfers < 1) {
        fprintf(stderr, "sqlite FILE THREADS TRANSFERS, with at most %d threads\n", MOST_THREADS);
        return 2;
    }
    make(words[1]);
    pthread_t thread[MOST_THREADS];
    struct work work[MOST_THREADS];
    pthread_barrier_t ready;
    pthread_barrier_init(&ready, NULL, threads + 1);
    for (long i = 0; i < threads; i++) {
        long share = transfers / threads + (i < transfers % threads);
        work[i] = (struct work){words[1], share, (unsigned)i + 1, &ready};
        if (pthread_create(&thread[i], NULL, transfer_all, &work[i]) != 0) {
            fprintf(stderr, "sqlite: no thread\n");
            return 1;
        }
    }
    pthread_barrier_wait(&ready);
    double begun = now();
    for (long i = 0; i < threads; i++)
        pthread_join(thread[i], NULL);
    double seconds = now() - begun;
    check(words[1]);
    printf("%.0f\n", transfers / seconds);
    return 0;
}
