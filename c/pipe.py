"""Sends a line through a pipe of bytes, by the shared library of C:

    make -C c && python3 c/pipe.py c/build/libpiper.so.0
"""
import ctypes
import sys

lib = ctypes.CDLL(sys.argv[1])


class Handle(ctypes.Structure):
    _fields_ = [("at", ctypes.c_void_p)]


size, handle = ctypes.c_size_t, ctypes.POINTER(Handle)


def declare(name, result, *arguments):
    call = getattr(lib, "piper_" + name)
    call.restype, call.argtypes = result, arguments
    return call


pipe_open = declare("open_abi_3", ctypes.c_uint32, size, handle, handle)
write = declare("writer_write", size, handle, ctypes.c_char_p, size)
read = declare("reader_read", size, handle, ctypes.c_char_p, size)
reader_drop = declare("reader_drop", None, handle)
writer_drop = declare("writer_drop", None, handle)

reader, writer = Handle(), Handle()
OPENED = 0
if pipe_open(1000, reader, writer) != OPENED:
    sys.exit("no memory")
line = b"hello from Python"
sent = write(writer, line, len(line))
place = ctypes.create_string_buffer(100)
came = read(reader, place, len(place))
writer_drop(writer)
reader_drop(reader)
print(place.raw[:came].decode())
sys.exit(0 if sent == came == len(line) else 1)
