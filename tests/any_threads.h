/* For any.c: threads that call the library at once, each in a memory of its own. */
#ifdef _WIN32
#include <windows.h>
typedef HANDLE thread;
#else
#include <pthread.h>
typedef pthread_t thread;
#endif

enum { THREADS = 4, ROUNDS = 2, PIECE = 500 };

typedef struct task {
    const uint8_t *bytes;
    size_t length;
    uint64_t sum; /* of all that the thread was told */
} task;

static void add(task *t, uint64_t number)
{
    t->sum = (t->sum ^ number) * 1099511628211u;
}

static void add_answer(task *t, gazhdor_answer answer, gazhdor_text text)
{
    const uint64_t numbers[] = { answer.status, answer.reason, answer.place, answer.row, answer.column, answer.files, text.length };
    for (size_t k = 0; k < sizeof numbers / sizeof *numbers; k++)
        add(t, numbers[k]);
    for (size_t k = 0; k < text.length; k++)
        add(t, text.bytes[k]);
    gazhdor_free(text);
}

static void add_call(task *t, call *of, gazhdor_text from)
{
    gazhdor_text text = GAZHDOR_NO_TEXT;
    gazhdor_answer answer = of(from.bytes, from.length, &text);
    add_answer(t, answer, text);
}

static void add_stream(task *t, uint32_t kind)
{
    gazhdor_stream stream = GAZHDOR_CLOSED_STREAM;
    gazhdor_text text = GAZHDOR_NO_TEXT;
    gazhdor_answer answer = gazhdor_open(&stream, kind);
    for (size_t at = 0; at < t->length && answer.status == GAZHDOR_GOOD; at += PIECE) {
        gazhdor_text some_text = GAZHDOR_NO_TEXT;
        answer = gazhdor_feed(&stream, t->bytes + at, t->length - at < PIECE ? t->length - at : PIECE, &some_text);
        add_answer(t, answer, some_text);
    }
    answer = gazhdor_finish(&stream, &text);
    add_answer(t, answer, text);
    gazhdor_close(&stream);
}

/* Each call, some times over. */
static void work(task *t)
{
    static call *const calls[] = { gazhdor_table, gazhdor_to_csv, gazhdor_show, gazhdor_messages };
    const gazhdor_text file = { t->bytes, t->length };
    for (int round = 0; round < ROUNDS; round++) {
        gazhdor_text none = GAZHDOR_NO_TEXT, csv = GAZHDOR_NO_TEXT, blocks = GAZHDOR_NO_TEXT;
        add_answer(t, gazhdor_check(t->bytes, t->length), none);
        for (size_t k = 0; k < sizeof calls / sizeof *calls; k++)
            add_call(t, calls[k], file);
        for (uint32_t kind = 0; kind < 5; kind++)
            add_stream(t, kind);
        gazhdor_to_csv(t->bytes, t->length, &csv);
        gazhdor_messages(t->bytes, t->length, &blocks);
        add_call(t, gazhdor_from_csv, csv);
        add_call(t, gazhdor_from_messages, blocks);
        add_call(t, written, blocks);
        gazhdor_free(csv);
        gazhdor_free(blocks);
    }
}

#ifdef _WIN32
static DWORD WINAPI in_thread(void *given)
{
    work(given);
    return 0;
}
static int begun(thread *at, task *t) { return (*at = CreateThread(NULL, 0, in_thread, t, 0, NULL)) != NULL; }
static int ended(thread at) { return WaitForSingleObject(at, INFINITE) == WAIT_OBJECT_0 && CloseHandle(at); }
#else
static void *in_thread(void *given)
{
    work(given);
    return NULL;
}
static int begun(thread *at, task *t) { return pthread_create(at, NULL, in_thread, t) == 0; }
static int ended(thread at) { return pthread_join(at, NULL) == 0; }
#endif

/* What threads were told at once, and what one alone is told. */
static void say_threads(const uint8_t *bytes, size_t length)
{
    thread threads[THREADS];
    task tasks[THREADS], alone = { bytes, length, 0 };
    for (int k = 0; k < THREADS; k++) {
        tasks[k] = alone;
        if (!begun(&threads[k], &tasks[k]))
            exit(4);
    }
    for (int k = 0; k < THREADS; k++)
        if (!ended(threads[k]))
            exit(4);
    work(&alone);
    for (int k = 0; k < THREADS; k++)
        printf("thread %d: %s\n", k, tasks[k].sum == alone.sum ? "as alone" : "not as alone");
    printf("alone: %llx\n", (unsigned long long)alone.sum);
}
