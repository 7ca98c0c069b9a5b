/* hiredis: requests by format and by vectors, a pipeline, nested replies and errors. Usage: hiredis PORT */
#include <hiredis/hiredis.h>
#include <stdarg.h>
#include <stdio.h>
#include <stdlib.h>
#include <string.h>
#include <sys/time.h>

static redisContext *context;

static void wrong(const char *what) {
    fprintf(stderr, "  WRONG: hiredis: %s: %s\n", what, context && context->err ? context->errstr : "another reply");
    exit(1);
}

static redisReply *of_type(redisReply *reply, int type, const char *what) {
    if (!reply || reply->type != type) {
        wrong(what);
    }
    return reply;
}

/* Asks by a format, and looks at the reply's type and, but for integers and nulls, at its text. */
static void ask(int type, const char *text, long long number, const char *format, ...) {
    va_list arguments;
    va_start(arguments, format);
    redisReply *reply = of_type(redisvCommand(context, format, arguments), type, format);
    va_end(arguments);
    if (type == REDIS_REPLY_INTEGER ? reply->integer != number
                                    : type != REDIS_REPLY_NIL && strncmp(reply->str, text, strlen(text)) != 0) {
        wrong(format);
    }
    freeReplyObject(reply);
}

static void binary_words(void) {
    const char *words[] = {"SET", "bin\0ary", "\r\n\0\xff"};
    const size_t lengths[] = {3, 7, 4};
    redisReply *reply = of_type(redisCommandArgv(context, 3, words, lengths), REDIS_REPLY_STATUS, "SET by a vector");
    freeReplyObject(reply);
    reply = of_type(redisCommand(context, "GET %b", words[1], lengths[1]), REDIS_REPLY_STRING, "GET %b");
    if (reply->len != 4 || memcmp(reply->str, words[2], 4) != 0) {
        wrong("GET %b");
    }
    freeReplyObject(reply);
}

static void pipeline(void) {
    const int count = 1000;
    for (int i = 0; i < count; i++) {
        redisAppendCommand(context, "RPUSH numbers %d", i);
    }
    redisAppendCommand(context, "LRANGE numbers 0 -1");
    void *reply;
    for (int i = 0; i < count; i++) {
        if (redisGetReply(context, &reply) != REDIS_OK
            || of_type(reply, REDIS_REPLY_INTEGER, "RPUSH")->integer != i + 1) {
            wrong("RPUSH in a pipeline");
        }
        freeReplyObject(reply);
    }
    if (redisGetReply(context, &reply) != REDIS_OK) {
        wrong("LRANGE in a pipeline");
    }
    redisReply *array = of_type(reply, REDIS_REPLY_ARRAY, "LRANGE");
    if (array->elements != (size_t)count || atoi(array->element[count - 1]->str) != count - 1) {
        wrong("LRANGE");
    }
    freeReplyObject(array);
}

int main(int count, char **words) {
    struct timeval patience = {30, 0};
    if (count != 2) {
        fprintf(stderr, "usage: hiredis PORT\n");
        return 2;
    }
    context = redisConnectWithTimeout("127.0.0.1", atoi(words[1]), patience);
    if (!context || context->err || redisSetTimeout(context, patience) != REDIS_OK) {
        wrong("connect");
    }
    ask(REDIS_REPLY_STATUS, "OK", 0, "FLUSHALL");
    ask(REDIS_REPLY_STATUS, "PONG", 0, "PING");
    ask(REDIS_REPLY_STATUS, "OK", 0, "SET %s %s", "key with space", "value");
    ask(REDIS_REPLY_STRING, "value", 0, "GET %s", "key with space");
    ask(REDIS_REPLY_NIL, "", 0, "GET nothing");
    ask(REDIS_REPLY_INTEGER, "", 7, "INCRBY number %d", 7);
    ask(REDIS_REPLY_INTEGER, "", 2, "HSET hash a 1 b 2");
    ask(REDIS_REPLY_ERROR, "WRONGTYPE", 0, "SADD hash a");
    ask(REDIS_REPLY_ERROR, "ERR unknown command", 0, "NOSUCH");
    ask(REDIS_REPLY_INTEGER, "", 3, "SADD set a b c");
    puts("  passed: hiredis: requests by format, errors");
    binary_words();
    puts("  passed: hiredis: words of any bytes");
    pipeline();
    puts("  passed: hiredis: a pipeline of 1,000 and an array of 1,000");
    ask(REDIS_REPLY_STATUS, "OK", 0, "QUIT");
    redisFree(context);
    return 0;
}
