"""redis-py: values, pipelines with and without MULTI, a lock by SETNX, a queue of jobs. Usage: redis_py.py PORT"""
import inspect
import threading
import uuid

import redis
from wire import HOST, PATIENCE, expect, knows, run


def client(port):
    options = {"host": HOST, "port": port, "socket_timeout": PATIENCE}
    # Newer versions speak RESP3 and tell their name, where they aren't told otherwise.
    known = inspect.signature(redis.Redis.__init__).parameters
    options.update({name: value for name, value in (("protocol", 2), ("lib_name", None), ("lib_version", None))
                    if name in known})
    return redis.Redis(**options)


def values(port):
    """redis-py: strings, lists, hashes, sets and errors"""
    r = client(port)
    expect("FLUSHALL", r.flushall(), True)
    expect("PING", r.ping(), True)
    expect("SET", r.set("a", b"\x00\xff"), True)
    expect("GET", r.get("a"), b"\x00\xff")
    expect("SET NX", r.set("a", "1", nx=True), None)
    expect("RPUSH", r.rpush("list", *range(5)), 5)
    expect("LRANGE", r.lrange("list", 0, -1), [b"0", b"1", b"2", b"3", b"4"])
    expect("HSET", r.hset("hash", mapping={"x": 1, "y": 2}), 2)
    expect("HGETALL", r.hgetall("hash"), {b"x": b"1", b"y": b"2"})
    expect("SADD", r.sadd("set", "p", "q"), 2)
    expect("SMEMBERS", r.smembers("set"), {b"p", b"q"})
    expect("MGET", r.mget("a", "nothing"), [b"\x00\xff", None])
    expect("TYPE", r.type("hash"), b"hash")
    try:
        r.lpush("hash", "1")
    except redis.ResponseError as error:
        expect("WRONGTYPE", str(error).startswith("WRONGTYPE"), True)
    else:
        expect("LPUSH on a hash", "an answer", "an error")
    expect("DEL", r.delete("a", "list", "hash", "set"), 4)


def pipelines(port):
    """redis-py: pipelines without a transaction"""
    r = client(port)
    with r.pipeline(transaction=False) as pipe:
        for i in range(1000):
            pipe.set("key:%d" % i, i).get("key:%d" % i)
        got = pipe.execute()
    expect("the replies", got, [reply for i in range(1000) for reply in (True, b"%d" % i)])


def transactions(port):
    """redis-py: pipelines in MULTI and EXEC"""
    if not knows(port, "DISCARD"):
        return "the server knows no MULTI"
    r = client(port)
    r.delete("counter", "list")
    with r.pipeline(transaction=True) as pipe:
        expect("EXEC", pipe.incr("counter").incrby("counter", 5).rpush("list", "a").execute(), [1, 6, 1])
        pipe.incr("counter").lpush("counter", "a").incr("counter")
        got = pipe.execute(raise_on_error=False)
    expect("EXEC with an error", [got[0], type(got[1]), got[2]], [7, redis.ResponseError, 8])
    expect("GET", r.get("counter"), b"8")
    return None


def in_threads(count, work):
    problems = []

    def guarded(number):
        try:
            work(number)
        except Exception as error:  # Whatever it is, the case is wrong.
            problems.append(error)

    threads = [threading.Thread(target=guarded, args=(number,), daemon=True) for number in range(count)]
    for thread in threads:
        thread.start()
    for thread in threads:
        thread.join()
    if problems:
        raise AssertionError(problems[0])


def locks(port):
    """redis-py: a lock by SETNX keeps four threads apart"""
    r = client(port)
    r.delete("lock", "guarded")
    r.set("guarded", 0)

    def add(_):
        mine = client(port)
        for _ in range(25):
            token = uuid.uuid4().hex
            for _ in range(100000):
                if mine.setnx("lock", token):
                    break
            else:
                raise AssertionError("no lock in 100,000 tries")
            # Two requests with the lock between them; without it an addition would be lost.
            mine.set("guarded", int(mine.get("guarded")) + 1)
            expect("the lock's holder", mine.get("lock"), token.encode())
            mine.delete("lock")

    in_threads(4, add)
    expect("the sum", r.get("guarded"), b"100")


def job_queue(port):
    """redis-py: a queue by LPUSH and RPOPLPUSH loses no job and does none twice"""
    r = client(port)
    jobs = 400
    r.delete("jobs", "done", *("doing:%d" % number for number in range(4)))

    def put(number):
        mine = client(port)
        for job in range(number, jobs, 2):
            mine.lpush("jobs", job)

    def take(number):
        mine = client(port)
        doing = "doing:%d" % number
        for _ in range(100000):
            job = mine.rpoplpush("jobs", doing)
            if job is not None:
                expect("SADD", mine.sadd("done", job), 1)
                expect("LREM", mine.lrem(doing, 1, job), 1)
            elif mine.scard("done") == jobs:
                return
        raise AssertionError("jobs are missing after 100,000 looks")

    in_threads(6, lambda number: put(number) if number < 2 else take(number - 2))
    expect("the jobs done", sorted(int(job) for job in r.smembers("done")), list(range(jobs)))
    expect("what is left", [r.llen("jobs")] + [r.llen("doing:%d" % number) for number in range(4)], [0] * 5)


run((values, pipelines, transactions, locks, job_queue))
