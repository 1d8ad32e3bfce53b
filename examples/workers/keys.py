"""Which keys of Redis are used, and how a connection finds its slot.

SPACE is the name of a group of workers with one list.

  SPACE:in:SLOT      a stream of Redis: pieces of the connections of a slot in order, and their ends
  SPACE:owner:SLOT   the worker that has the slot, for as long as its lease lasts
  SPACE:done:SLOT    the last piece whose effect is in the saved streams
  SPACE:state:SLOT   a hash: connection -> life, offset and saved stream
  SPACE:workers      a sorted set: worker -> when it was last seen
  SPACE:reports      a stream of Redis: reports, and the ends of lives
  SPACE:stop         is there when the workers are to stop
"""
import struct
import zlib

SLOTS = 48
HEAD = struct.Struct(">QQ")


def slot_of(connection):
    """All pieces of a connection come to one slot, and so to one worker at a time."""
    return zlib.crc32(connection) % SLOTS


def packed(life, offset, state):
    return HEAD.pack(life, offset) + state


def unpacked(value):
    return (*HEAD.unpack_from(value), value[HEAD.size:])
