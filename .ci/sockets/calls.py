"""Records of calls and replies, as the tests of this folder compose them."""
import rpc
from rpc import CORE, CREATE_LINK, END, LOCK, READ, WRITE, WRITE_MAX


def call(xid, procedure, *arguments, program=CORE):
    return rpc.record(rpc.call(xid, program, procedure, *arguments))


def reply(xid, *results):
    return rpc.record(rpc.reply(xid, *results))


def create(xid, device, lock=0, lock_timeout=0):
    return call(xid, CREATE_LINK, 42, lock, lock_timeout, device)


def created(xid, link, server):
    return reply(xid, 0, link, server.abort, WRITE_MAX)


def write(xid, link, data):
    return call(xid, WRITE, link, 10000, 0, END, data)


def read(xid, link, io_timeout=10000):
    return call(xid, READ, link, 1024, io_timeout, 0, 0, 0)


def lock(xid, link, flags=0, lock_timeout=0):
    return call(xid, LOCK, link, flags, lock_timeout)
