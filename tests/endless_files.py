"""Files that never end, of any length that stat(2) reports: FUSE, without a library."""
import ctypes
import os
import stat
import struct
import threading

LOOKUP, FORGET, GETATTR, OPEN, READ, RELEASE, FLUSH, INIT = 1, 2, 3, 14, 15, 18, 25, 26
OPENDIR, READDIR, RELEASEDIR, INTERRUPT, BATCH_FORGET = 27, 28, 29, 36, 42
WITHOUT_REPLY = (FORGET, INTERRUPT, BATCH_FORGET)
DIRECT_IO = 1
NO_ENTRY, NO_CALL = 2, 38
LAZILY = 2
LARGEST = 1 << 20
LIBC = ctypes.CDLL(None, use_errno=True)


class EndlessFiles:
    """A directory with these files, by the lengths that stat(2) reports. `read` counts bytes."""

    def __init__(self, folder, lengths):
        self.folder, self.names, self.lengths = folder, list(lengths), list(lengths.values())
        self.read = dict.fromkeys(self.names, 0)

    def __enter__(self):
        self.device = os.open('/dev/fuse', os.O_RDWR)
        options = 'fd=%d,rootmode=40000,user_id=0,group_id=0,allow_other' % self.device
        if LIBC.mount(b'endless', os.fsencode(self.folder), b'fuse', 0, options.encode()):
            os.close(self.device)
            raise OSError(ctypes.get_errno(), 'mount')
        threading.Thread(target=self.serve, daemon=True).start()
        return self

    def __exit__(self, *_):
        LIBC.umount2(os.fsencode(self.folder), LAZILY)

    def serve(self):
        while True:
            try:
                asked = os.read(self.device, LARGEST + 4096)
                size, call, number, node = struct.unpack_from('=IIQQ', asked)
                if call not in WITHOUT_REPLY:
                    error, answer = self.answer(call, node, asked[40:size])
                    head = struct.pack('=IiQ', 16 + len(answer), -error, number)
                    os.write(self.device, head + answer)
            except OSError:
                return os.close(self.device)

    def attributes(self, node):
        mode = stat.S_IFDIR | 0o755 if node == 1 else stat.S_IFREG | 0o644
        length = 0 if node == 1 else self.lengths[node - 2]
        return struct.pack('=QQ44xIIIIIII', node, length, mode, 1, 0, 0, 0, 4096, 0)

    def answer(self, call, node, given):
        """An error or 0, and what is answered."""
        if call == INIT:
            return 0, struct.pack('=IIIIHHIIHHI28x', 7, 31, 0, 0, 0, 0, LARGEST, 1, 0, 0, 0)
        if call == LOOKUP:
            name = os.fsdecode(given.split(b'\0')[0])
            if name not in self.names:
                return NO_ENTRY, b''
            node = self.names.index(name) + 2
            return 0, struct.pack('=QQQQII', node, 0, 0, 0, 0, 0) + self.attributes(node)
        if call == GETATTR:
            return 0, struct.pack('=QII', 0, 0, 0) + self.attributes(node)
        if call in (OPEN, OPENDIR):
            return 0, struct.pack('=QII', node, DIRECT_IO if call == OPEN else 0, 0)
        if call == READ:
            size = struct.unpack_from('=QQI', given)[2]
            self.read[self.names[node - 2]] += size
            return 0, b'#' * size
        if call == READDIR:
            return 0, self.listed() if not struct.unpack_from('=QQ', given)[1] else b''
        return (0, b'') if call in (RELEASE, RELEASEDIR, FLUSH) else (NO_CALL, b'')

    def listed(self):
        entries = b''
        for number, name in enumerate(self.names):
            name = os.fsencode(name)
            entry = struct.pack('=QQII', number + 2, number + 1, len(name), 8) + name
            entries += entry + bytes(-len(entry) % 8)
        return entries
